# Makes Debian's changelog of CHANGELOG.md, whose versions are headings: each is signed by `who` at the
# time `dated`.
function end() {
    put()
    if (version) printf "\n -- %s  %s\n", who, dated
}

# Puts the text that was read below its bullet or by itself, in lines of 78.
function put(lead, words, count, at, line) {
    if (!text) return
    count = split(text, words, " ")
    line = mark
    for (at = 1; at <= count; at++) {
        if (length(line) + length(words[at]) > 78) { print line; line = "   " }
        line = line " " words[at]
    }
    print line
    text = ""
}

/^## / {
    end()
    if (version) print ""
    version = $2
    printf "lms-tool (%s) unstable; urgency=medium\n\n", version
    next
}
!version { next }
/^### / { put(); sub(/^### /, ""); printf "\n  [ %s ]\n", $0; next }
/^$/ { put(); next }
{
    gsub(/\*\*|`/, "")
    while (match($0, /\[[^][]*\]\([^()]*\)/)) {
        link = substr($0, RSTART, RLENGTH)
        $0 = substr($0, 1, RSTART - 1) substr(link, 2, index(link, "](") - 2) substr($0, RSTART + RLENGTH)
    }
    if (sub(/^- /, "")) { put(); mark = "  *" }
    else if (!text) mark = "  *"
    text = text " " $0
}
END { end() }
