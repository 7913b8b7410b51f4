# Makes a page of the manual of a text of help: `called` is the page's name, `words` the command that it
# describes, `dated` and `version` stand in its head, `files` is the text on files, and `others` the
# further pages. Lines are filled, but for examples and what help has indented.

# The text as the formatter shows it, what stands in backquotes bold.
function shown(text, parts, count, at, made) {
    gsub(/\\/, "\\e", text)
    gsub(/-/, "\\-", text)
    count = split(text, parts, "`")
    made = parts[1]
    for (at = 2; at <= count; at++) made = made (at % 2 ? "\\fR" : "\\fB") parts[at]
    return made ~ /^[.']/ ? "\\&" made : made
}

# An option and its value, as `--state <FILE>`.
function option(text) {
    text = shown(text)
    if (sub(/ </, "\\fR \\fI", text)) sub(/>/, "", text)
    return "\\fB" text "\\fR"
}

# An example, broken before its options where it is long.
function example(line, left, at, made, piece) {
    sub(/^  /, "", line)
    while (length(line) > 68) {
        for (at = 64; at > 8 && substr(line, at, 3) != " --"; at--);
        if (at <= 8) break
        made = made shown(substr(line, 1, at - 1)) " \\e\n"
        line = "    " substr(line, at + 1)
    }
    return made shown(line) "\n"
}

# A paragraph of lines that are joined, and of others, indented, that are not.
function paragraph(lines, count, at, made) {
    made = ".PP\n"
    for (at = 1; at <= count; at++) {
        if (lines[at] !~ /^  /) made = made shown(lines[at]) "\n"
        else made = made ".nf\n" example(lines[at]) ".fi\n"
    }
    return made
}

# What stands under `Example`: a line on it, where that says more, and what is to be typed.
function examples_of(lines, count, at, made) {
    made = lines[1] == "Example:" ? ".nf\n" : shown(lines[1]) "\n.PP\n.nf\n"
    for (at = 2; at <= count; at++) made = made example(lines[at])
    return made ".fi\n"
}

function end_paragraph() {
    if (!count) return
    if (lines[1] ~ /^Example/) examples = examples examples_of(lines, count)
    else described = described paragraph(lines, count)
    count = 0
}

NR == 1 { about = $0; next }
/^Usage: / { usage = substr($0, 8); next }
/^(Commands|Options):$/ { table = $0; next }
table && /^ / {
    text = $0
    sub(/^ +/, "", text)
    at = match(text, /   *[^ ]/)
    row = ".TP\n" option(substr(text, 1, at - 1)) "\n" shown(substr(text, at + RLENGTH - 1)) "\n"
    if (table == "Commands:") commands = commands row
    else options = options row
    next
}
/^$/ { table = ""; end_paragraph(); next }
{ lines[++count] = $0 }

END {
    end_paragraph()
    printf ".TH %s 1 \"%s\" \"lms_tool %s\" \"HSS/LMS signatures\"\n.nh\n.ad l\n", toupper(called), dated, version
    printf ".SH NAME\n%s \\- %s\n.SH SYNOPSIS\n", called, shown(about)
    sub("^" words, "", usage)
    gsub(/</, "\001", usage)
    gsub(/>/, "\002", usage)
    usage = shown(usage)
    gsub(/\001/, "\\fI", usage)
    gsub(/\002/, "\\fR", usage)
    printf "\\fB%s\\fR%s\n", words, usage
    print ".SH DESCRIPTION"
    printf "%s.\n%s", shown(about), described
    if (commands) printf ".SH COMMANDS\n%s", commands
    printf ".SH OPTIONS\n%s", options
    print ".SH EXIT STATUS"
    while ((getline row < statuses) > 0) {
        at = index(row, " ")
        printf ".TP\n%s\n%s\n", substr(row, 1, at - 1), shown(substr(row, at + 1))
    }
    if (commands || options ~ /\\-\\-state/) {
        print ".SH FILES"
        while ((getline row < files) > 0) {
            at = index(row, " ")
            printf ".TP\n.I %s\n%s\n", substr(row, 1, at - 1), shown(substr(row, at + 1))
        }
    }
    if (examples) printf ".SH EXAMPLES\n%s", examples
    print ".SH SEE ALSO"
    count = split(others, names, " ")
    for (at = 1; at <= count; at++) printf ".BR %s (1)%s\n", shown(names[at]), at < count ? "," : ""
}
