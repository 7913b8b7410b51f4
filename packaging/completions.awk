# Makes completions for bash or zsh, which `shell` names, of texts of help: first that of the program,
# which names all commands, then that of each command.
function quoted(text) {
    gsub(/'/, "'\\''", text)
    return text
}

FNR == 1 { about = $0; table = command = "" }
/^Usage: / { command = $3; if (command ~ /^</) command = "" }
/^(Commands|Options):$/ { table = $1; next }
/^$/ { table = "" }
table == "Commands:" {
    name = $1
    sub(/^ *[^ ]+ +/, "")
    names = names " " name
    described = described "        '" name ":" quoted($0) "'\n"
}
table == "Options:" && !command && match($0, /--[^ ]+/) {
    option = substr($0, RSTART, RLENGTH)
    own = own " " option
    sub(/^.*--[^ ]+ +/, "")
    own_described = own_described "        '" option ":" quoted($0) "'\n"
}
table == "Options:" && command && /^ +--/ {
    option = $1
    value = $2
    sub(/^ *--[^ ]+ <[^>]*> +/, "")
    gsub(/[\[\]]/, "\\\\&")
    is_file = value == "<FILE>"
    bash[command] = bash[command] " " option
    if (is_file) files[command] = files[command] " " option
    zsh[command] = zsh[command] " \\\n                '" option "=[" quoted($0) "]:" substr(value, 2, length(value) - 2) ":" (is_file ? "_files" : " ") "'"
    if (!(command in seen)) { seen[command]; order[++count] = command }
}

function for_bash(at, command) {
    print "# bash completion for lms_tool, made of its help"
    print "_lms_tool() {"
    print "    local word=${COMP_WORDS[COMP_CWORD]} before=${COMP_WORDS[COMP_CWORD - 1]} options= files= given=\" ${COMP_WORDS[*]} \" it"
    print "    COMPREPLY=()"
    print "    if [ \"$COMP_CWORD\" -eq 1 ]; then"
    print "        mapfile -t COMPREPLY < <(compgen -W '" substr(own, 2) names "' -- \"$word\")"
    print "        return"
    print "    fi"
    print "    # (`--option=value` is three words here.)"
    print "    if [ \"$word\" = = ]; then word=; elif [ \"$before\" = = ]; then before=${COMP_WORDS[COMP_CWORD - 2]}; fi"
    print "    case ${COMP_WORDS[1]} in"
    for (at = 1; at <= count; at++) {
        command = order[at]
        print "        " command ")"
        print "            options='" substr(bash[command], 2) " --help'"
        print "            files='" files[command] " '"
        print "            ;;"
    }
    print "        help) options='" substr(names, 2) "' ;;"
    print "    esac"
    print "    case $files in"
    print "        *\" $before \"*)"
    print "            compopt -o filenames 2>/dev/null"
    print "            mapfile -t COMPREPLY < <(compgen -f -- \"$word\")"
    print "            return"
    print "            ;;"
    print "    esac"
    print "    # Another option's value is nobody's to guess, and an option is given once."
    print "    case \" $options \" in *\" $before \"*) [ \"$before\" = --help ] || [ \"${COMP_WORDS[1]}\" = help ] || return ;; esac"
    print "    for it in $options; do"
    print "        case $given in *\" $it \"*) [ \"$it\" = \"$word\" ] || continue ;; esac"
    print "        case $it in \"$word\"*) COMPREPLY+=(\"$it\") ;; esac"
    print "    done"
    print "}"
    print "complete -F _lms_tool lms_tool lms-tool"
}

function for_zsh(at, command) {
    print "#compdef lms_tool lms-tool"
    print "# Made of the help of lms_tool."
    print "_lms_tool() {"
    print "    local -a commands=("
    printf "%s", described
    print "    )"
    print "    local -a own=("
    printf "%s", own_described
    print "    )"
    print "    if (( CURRENT == 2 )); then"
    print "        _describe command commands"
    print "        _describe -o option own"
    print "        return"
    print "    fi"
    print "    local command=$words[2]"
    print "    shift words"
    print "    (( CURRENT -= 1 ))"
    print "    case $command in"
    for (at = 1; at <= count; at++) {
        command = order[at]
        print "        " command ")"
        print "            _arguments" zsh[command] " \\\n                '--help[Print help]'"
        print "            ;;"
    }
    print "        help) _describe command commands ;;"
    print "    esac"
    print "}"
    print "_lms_tool \"$@\""
}

END { if (shell == "bash") for_bash(); else for_zsh() }
