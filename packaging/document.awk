# Has the links of a document lead where the package has what they name: `folder` is the document's in
# the repository, with a stroke behind it, or nothing, and the file `places` has a line for each file that
# is packed, its name in the repository and the one by which documents reach it, from a folder among them
# by `up` before that. A link to another file of the repository becomes its text.
BEGIN { while ((getline line < places) > 0) { split(line, words, " "); place[words[1]] = words[2] } }

function led(text, target, at, file, anchor) {
    if (target ~ /^(#|https?:)/) return "[" text "](" target ")"
    at = index(target, "#")
    file = at ? substr(target, 1, at - 1) : target
    anchor = at ? substr(target, at) : ""
    file = folder file
    while (sub(/[^\/]+\/\.\.\//, "", file));
    return file in place ? "[" text "](" up place[file] anchor ")" : text
}

{
    made = ""
    while (match($0, /\[[^][]*\]\([^()]*\)/)) {
        link = substr($0, RSTART, RLENGTH)
        at = index(link, "](")
        made = made substr($0, 1, RSTART - 1) led(substr(link, 2, at - 2), substr(link, at + 2, length(link) - at - 2))
        $0 = substr($0, RSTART + RLENGTH)
    }
    print made $0
}
