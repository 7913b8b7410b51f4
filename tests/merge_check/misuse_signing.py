"""The calls in the product's code by which a one-time key signs, and by which a book is opened and indices
are reserved, for `misuse`: each signs after its index was reserved, and a further one is seen. A line is one
call: it has the crate, the type and the function that it is in, and the loops and closures there, and a call that
is made twice has two lines."""

import re

# What calls that sign are named, or a value that says that something was signed, made of its parts.
CALLS = r"(?<!fn )\b(?:sign_(?:into|key_into|lease|index|computed|kept|with)|append_signature|unverified|write_head)\b|(?:\.|::)\s*sign\b(?!\s*::)"
SIGNS = re.compile(rf"{CALLS}|\bReceipt\b\s*\{{")
RESERVES = re.compile(r"\bBook\b(?:::<[^>]*>)?\s*::\s*open\b|\.\s*reserve\s*\(")
# What walks chains, or derives what is secret.
WALKS = re.compile(
    r"(?<!fn )\b(?:walk|walk_all|walk_lanes|walk_on|lane_values|hash_after|hash_chains|hash_ends|chain|secret|nodes_secret)\s*\("
)
# These crates are no part of the product.
OTHERS = re.compile(r"_tests$|^bench_|fixtures$|^lms_(?:slow|example|uses|recorded|worked_turns)$")
SIGNING = """
    lms_batch: OpenLease::sign: sign_with
    lms_batch: OpenLease::sign_with: Receipt
    lms_batch: OpenLease::sign_with: sign
    lms_batch: Receipt::into_signature: Receipt
    lms_batch: Worker::sign_next: sign_with
    lms_hss: Forest::sign: sign
    lms_hss: SignedTree::child: sign_key_into
    lms_hss: SignedTree::sign: sign_into
    lms_hss: SignedTree::sign_into: sign_into
    lms_hss: SignedTree::sign_key_into: sign_into
    lms_hss: outside: sign_into
    lms_kept: KeptLevel::append_signature: sign_into
    lms_kept: KeptLevel::child: sign_key_into
    lms_kept: KeptLevel::sign_key_into: sign_into
    lms_kept: KeptTrees::sign: unverified
    lms_kept: KeptTrees::unverified: append_signature
    lms_kept: PlannedSignature::sign: sign
    lms_kept: outside: sign_lease
    lms_kept: sign_computed: sign
    lms_kept: sign_index: sign_computed
    lms_kept: sign_index: sign_computed
    lms_kept: sign_index: sign_kept
    lms_kept: sign_kept: sign
    lms_kept: sign_lease: sign_index
    lms_ots: outside: sign_into
    lms_ots: sign_into: write_head
    lms_signature_commands: outside: sign_lease
    lms_signature_commands: sign_reserved: sign_lease
    lms_tree: KeptTree::sign_into: sign_into
    lms_tree: outside: sign_into
    lms_tree: outside: sign_into
    lms_tree: sign_into: write_head
    lms_tree: write_head: sign_into
    """
RESERVING = """
    lms_batch: SigningService::sign_batch_by: reserve
    lms_commands: open_state: Book::open
    lms_kept: KeptTrees::moved_to: reserve
    lms_key_commands: burn_piece: reserve
    lms_shared_book: CountedBook::reserve: reserve
    lms_shared_book: SharedBook::reserve: reserve
    lms_signature_commands: sign_reserved: reserve
    """
WALKING = """
    lms_hss: derived: secret
    lms_kept: check_value: nodes_secret
    lms_lanes: ends_of: walk
    lms_lanes: hash_chains: walk
    lms_ots: ByEights::ends_hash: walk_all
    lms_ots: OneByOne::ends_hash for: chain
    lms_ots: chain for: hash_after
    lms_ots: eight_public_hashes: hash_ends
    lms_ots: lane_values: walk_lanes
    lms_ots: public_hash for: lane_values
    lms_ots: secret: hash_after
    lms_ots: sign_into: walk_all
    lms_ots: walk_all loop: walk_on
    lms_ots: walk_lanes: hash_chains
    lms_ots: walk_on: walk_lanes
    """
# One call, the same by other names, and what has to be seen.
CALL = "impl Tree { fn signs(&self) { %s } }"
SAMPLES = {
    "once": CALL % "self.tree.sign_into(q, out);",
    "named otherwise": CALL % "let written = below.sign_into(leaf, &mut text[start..]);",
    "twice": CALL % "self.tree.sign_into(q, out); self.tree.sign_into(q, out);",
    "in a loop": CALL % "for q in [0, 1] { self.tree.sign_into(q, out); }",
    "in a condition": CALL % "while self.tree.sign_into(q, out) {}",
    "in a closure": CALL % "twice(move |q| { self.tree.sign_into(q, out); });",
    "in a closure without braces": CALL % "twice(|| self.tree.sign_into(q, out));",
    "in a struct in a closure": CALL % "twice(|q| Done { text: self.tree.sign_into(q, out) });",
    "in another function": CALL.replace("signs", "again") % "self.tree.sign_into(q, out);",
    "in another type": CALL.replace("Tree", "Level") % "self.tree.sign_into(q, out);",
    "by another name": "use lms_ots::sign_into as write; " + CALL % "write(q, out);",
    "none": CALL % "",
}
