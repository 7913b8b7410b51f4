"""What may print no secret, for `misuse`: types that have a key's seed in them, and bodies that would print
one."""

import re

# The types that have a seed, or what is as good, with their crates, and what may be printed of each.
SECRETS = {
    "HssKey": ("lms_hss", "it.capacity()"),
    "Levels": ("lms_hss", "it.as_slice().len()"),
    "TreeKey": ("lms_tree", "it.lms"),
    "Image": ("lms_image", "it.counter"),
    "ImageBytes": ("lms_image", "it.as_slice().len()"),
}
# How a value is printed, and the trait by which that would be.
WAYS = {"{:?}": "Debug", "{}": "Display"}
BODY = """
    use $crate::$Type;
    use std::alloc::{AllocError, Global};

    pub fn printed(alloc: Global, it: &$Type) -> Result<String, AllocError> {
        format!(in alloc; "$how", $what)
    }"""
# A type that has one of the traits by a derive, with its name and its fields, and one by an impl.
DERIVED = re.compile(r"#\[derive\([^)]*\bDebug\b[^)]*\)\]\s*(?:pub(?:\([^)]*\))? )?(?:struct|enum|union) (\w+)")
BY_HAND = re.compile(r"\bimpl\b[^{};]*\b(?:Debug|Display|LowerHex|UpperHex)\b for (\w+)")
DECLARED = r"\b(?:struct|enum|union) {}\b"
FIELDS = re.compile(r"[{(][^{}]*(?:\{[^{}]*\}[^{}]*)*[})]|;")
SECRET_FIELD = re.compile(rf"\bseed:|[:(<&,]\s*(?:\w+::)*(?:{'|'.join(SECRETS)})\b(?!\s*[({{])")


# Where a seed has its name.
SEED = re.compile(r"\bseed\b(?!\s*::)")
SEEDS = """
    lms_cli: explain_seed: if is_hexadecimal(seed.as_str()) =>
    lms_cli: explain_seed: seed, ..
    lms_cli: explain_seed: world.explain(format_args!( , seed.len()))
    lms_cli: obey: let key = key_from(resources.alloc, &levels, &seed, &id, input)?
    lms_cli: obey: levels, seed, id, state, public,
    lms_command_line: outside: levels: String, seed: String, id: String, state: String, public: String,
    lms_command_line: read: levels: option_text(alloc, options, )?, seed: option_text(alloc, options, )?, id: option_text(alloc, options, )?, state: option_text(alloc, options, )?, public: option_text(alloc, options, )?,
    lms_hss: child_key: lms, ots, i, seed: derived(parent, q, FOR_CHILD_SEED),
    lms_hss: derived: secret(&parent.seed, OtsId
    lms_hss: new: levels, seed, i
    lms_hss: outside: pub fn new(levels: Levels, seed: [u8
    lms_hss: outside: pub levels: Levels, pub seed: [u8
    lms_hss: top_tree: levels: _, seed, i
    lms_hss: top_tree: lms, ots, i, seed
    lms_image: cut: let (seed, rest) = rest.split_first_chunk::<SEED_LEN>()?
    lms_image: cut: levels, seed, i, counter, openings, burnt, digest,
    lms_image: decode_image: let key = HssKey::new(levels, *parts.seed, *parts.i)
    lms_image: encode_image: text.append(&image.key.seed)
    lms_image: outside: LEVEL_LEN]], seed: &'a [u8
    lms_key_commands: key_from: Ok(key_of(levels, seed, id))
    lms_key_commands: key_from: let seed = read_seed(seed, input)?
    lms_key_commands: key_from: let seed = read_seed(seed, input)?
    lms_key_commands: key_of: HssKey::new(levels, seed, id)
    lms_key_commands: outside: fn key_of(levels: Levels, seed: [u8
    lms_key_commands: outside: pub fn key_from<I: Read>( alloc: Global, levels: &str, seed: &str, id: &str, input: &mut I, ) -> Result<HssKey, Fault>
    lms_ots: eight_public_hashes: hash_ends(&fronts, D_PBLC, t.p() as u16, 0xff, last_digit(t) + 1, seed)
    lms_ots: lane_values: LANES], &[*seed
    lms_ots: outside: pub fn eight_public_hashes( t: OtsType, seed: &[u8
    lms_ots: outside: pub fn public_hash(t: OtsType, seed: &[u8
    lms_ots: outside: pub fn secret(seed: &[u8
    lms_ots: outside: pub fn sign_into( t: OtsType, seed: &[u8
    lms_ots: outside: pub(crate) fn lane_values( id: OtsId, first: u16, digit: u16, seed: &[u8
    lms_ots: public_hash for: let ends = lane_values(id, first as u16, last, seed)
    lms_ots: secret: hash_after(&chain_head(id, i), 0xff, seed)
    lms_ots: sign_into: MOST_CHAINS], &hashes_to(&digits), &[*seed], &mut values, )
    lms_shared_book: outside: seed = []
    lms_texts: outside: mod seed
    lms_texts: seed_on: Some(seed) => Ok(seed), None => Err(SeedFault::Bad),
    lms_texts: seed_on: Some(seed) => Ok(seed), None => Err(SeedFault::Bad),
    lms_tree: leaf: let ots_public = public_hash(self.ots, &self.seed, OtsId
    lms_tree: neighbouring_leaves: let ots_publics = eight_public_hashes(self.ots, &self.seed, OtsId
    lms_tree: outside: 16], pub seed: [u8
    lms_tree: write_head: lms_ots::sign_into(key.ots, &key.seed, id, c, msg, &mut out[4..ots_end])
    """
# A field of bytes, and which types of the product that can be printed have one: an identifier, what clap says,
# what of a file is public, and a file's name.
BYTES_FIELD = re.compile(r"\[\s*[ui](?:8|16|32|64|128|size)\b|\b(?:u8|String|str|Vec|ArrayVec|ArrayString)\b")
WITH_BYTES = {"ClapText of lms_command_line", "KeyParts of lms_inspect", "KeyedLevel of lms_inspect", "OtsId of lms_ots", "Quoted of lms_world"}


def bodies():
    """For each type a body that prints it in each way, and one that prints a part of it: the body's name,
    its file, the words for BODY, and the error that has to refuse it, with what that says, if any."""
    found = []
    for type_name, (crate, part) in SECRETS.items():
        words, file = {"crate": crate, "Type": type_name}, f"printed_{type_name.lower()}"
        for number, (how, trait) in enumerate(WAYS.items()):
            whole = {**words, "how": how, "what": "it"}
            says = f"`{type_name}` doesn't implement `{trait}`"
            found.append((f"{type_name} printed by `{how}`", f"{file}_{number}", whole, "unsatisfied-bound", says))
        found.append((f"a part of {type_name} printed", file, {**words, "how": "{:?}", "what": part}, None, None))
    return found


def printed_with_a_seed(code):
    """The types in this code that can be printed, and have a seed in them or a type that has one."""
    return [name for name in printed(code) if name in SECRETS or has_field(code, name, SECRET_FIELD)]


def printed_with_bytes(code):
    """The types in this code that can be printed, and have bytes in them."""
    return [name for name in printed(code) if has_field(code, name, BYTES_FIELD)]


def printed(code):
    """The types in this code that can be printed."""
    return sorted({*DERIVED.findall(code), *BY_HAND.findall(code)})


def has_field(code, name, wanted):
    """Whether the type of this name has such a field."""
    ends = [it.end() for it in re.finditer(DECLARED.format(name), code)]
    return any(wanted.search(FIELDS.search(code, it)[0]) for it in ends)
