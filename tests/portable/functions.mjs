// Runs functions of a module in node: node functions.mjs MODULE < CASES. Each line of CASES is: the
// function's number, the stack pointer, the flag in_call, the seed of the memory from the address that
// follows to the stack's end, the number of arguments and those, each with its size in bytes and a
// colon before it, and then addresses, each with the bytes in hexadecimal that are put there.
// Prints for each its result, the two globals and the SHA-256 of that memory, or `trap`.
import { readFileSync } from "node:fs";
import { createHash } from "node:crypto";

const STACK_END = 0x100000;
const { instance: { exports } } = await WebAssembly.instantiate(readFileSync(process.argv[2]), {});
const memory = new Uint8Array(exports.memory.buffer);
const view = new DataView(exports.memory.buffer);

const fill = (seed, low) => {
    for (let at = low; at < STACK_END; at += 4) {
        seed ^= seed << 13;
        seed ^= seed >>> 17;
        seed ^= seed << 5;
        view.setUint32(at, seed, true);
    }
};

const argument = (word) => {
    const [size, value] = word.split(":");
    return size === "4" ? Number(BigInt.asIntN(32, BigInt(value))) : BigInt.asIntN(64, BigInt(value));
};

const result = (value) => {
    if (value === undefined) return "0";
    return typeof value === "bigint" ? String(BigInt.asUintN(64, value)) : String(value >>> 0);
};

const run = (line) => {
    const [number, pointer, in_call, seed, low, count, ...rest] = line.split(" ");
    fill(Number(seed), Number(low));
    exports.stack_pointer.value = BigInt(pointer);
    exports.in_call.value = Number(in_call);
    for (let at = Number(count); at < rest.length; at += 2) memory.set(Buffer.from(rest[at + 1], "hex"), Number(rest[at]));
    try {
        const answer = result(exports[number](...rest.slice(0, Number(count)).map(argument)));
        const hash = createHash("sha256").update(memory.subarray(Number(low), STACK_END)).digest("hex");
        return `${answer} ${exports.stack_pointer.value} ${exports.in_call.value >>> 0} ${hash}`;
    } catch (why) {
        if (!(why instanceof WebAssembly.RuntimeError)) throw why;
        return "trap";
    }
};

const lines = readFileSync(0, "utf8").split("\n").filter((line) => line !== "");
process.stdout.write(lines.map((line) => `${run(line)}\n`).join(""));
