// Calls the verifier that was built for browsers in node: node tests/c/node.mjs MODULE PUBLIC
// MESSAGE SIGNATURE. Prints `valid` or `invalid`, where both ways of calling say so.
import { readFileSync } from "node:fs";
import { createHash } from "node:crypto";

const [module, ...names] = process.argv.slice(2);
const { instance: { exports: lms } } = await WebAssembly.instantiate(readFileSync(module), {});
const [key, message, signature] = names.map((name) => readFileSync(name));
const pages = Math.ceil((key.length + message.length + signature.length + 86) / 65536);

// Versions before 24 count pages of such a memory by numbers, and later ones by BigInts.
const grow = () => {
    try {
        return lms.memory.grow(BigInt(pages));
    } catch {
        return lms.memory.grow(pages);
    }
};

let at = Number(grow()) * 65536;

// The address and the length of bytes, once they are in the verifier's memory.
const put = (bytes) => {
    new Uint8Array(lms.memory.buffer, at, bytes.length).set(bytes);
    at += bytes.length;
    return [BigInt(at - bytes.length), BigInt(bytes.length)];
};

const public_key = put(key);
const signed = put(signature);
const whole = Boolean(lms.lms_verify(...public_key, ...put(message), ...signed));
const [head] = put(new Uint8Array(54));
let by_hash = false;
if (lms.lms_message_head(...public_key, ...signed, head)) {
    const hash = createHash("sha256").update(new Uint8Array(lms.memory.buffer, Number(head), 54)).update(message).digest();
    by_hash = Boolean(lms.lms_verify_hash(...public_key, ...signed, put(hash)[0]));
}
console.log(whole === by_hash ? (whole ? "valid" : "invalid") : "the two ways differ");
process.exitCode = whole ? 0 : 1;
