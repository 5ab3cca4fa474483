# Completion of depot's words in bash: source this file, or put it into the folder of your completions under the name depot.

# The answers that begin with the word that is being written.
_depot_words() {
    mapfile -t COMPREPLY < <(compgen -W "$1" -- "${COMP_WORDS[COMP_CWORD]}")
}

_depot() {
    local commands='check explain compile verify limit run disassemble assemble eval trace parts encode decode init script code program deliver list since catalog export remove migrate inspect scrub batch help'
    local encodings='raw base64 base64-mime base32 base32hex base16 qp'
    COMPREPLY=()
    if [ "$COMP_CWORD" = 1 ]; then
        _depot_words "$commands --help --version"
        return
    fi
    # the command, and the number of the word that is being written after it
    case ${COMP_WORDS[1]}:$((COMP_CWORD - 1)) in
    help:1) _depot_words "$commands" ;;
    encode:1 | decode:1 | export:4) _depot_words "$encodings" ;;
    check:1 | explain:1 | compile:[12] | verify:1 | limit:1 | run:[12] | disassemble:1 | assemble:[12] | eval:[12] | trace:[12] | \
        parts:1 | init:1 | script:[13] | code:[13] | program:[13] | deliver:[13] | list:1 | since:1 | catalog:1 | export:1 | remove:1 | migrate:1 | inspect:1 | scrub:1 | batch:1)
        compopt -o default 2> /dev/null
        ;;
    esac
}

complete -F _depot depot
