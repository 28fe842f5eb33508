# Completes the words of the commands of `integrity` in bash: commands, options that are not given yet, their values, and files.

# The options of a command, the ones that take a value with a `=`.
_integrity_options() {
    local hash='--integrity= --integrity-key-file='
    case $1 in
        format)
            echo "$hash --tag-size= --sector-size= --interleave-sectors= --sections= --log2-blocks-per-bit= --salt=" \
                '--integrity-legacy-padding --mode= --no-wipe --recalculate' ;;
        run | nbd | mirror) echo "--mode= $hash --integrity-legacy-recalculate" ;;
        check) echo "$hash --placed" ;;
        salvage | resize) echo "$hash" ;;
    esac
}

# The values of an option of a command, or nothing where they are no list.
_integrity_values() {
    case $2 in
        --mode)
            case $1 in
                run) echo 'J D B R' ;;
                nbd) echo 'J D B' ;;
                mirror) echo 'J' ;;
                *) echo 'J B' ;;
            esac ;;
        --integrity) echo 'sha256 hmac-sha256' ;;
        --sector-size) echo '512 1024 2048 4096' ;;
        --tag-size) echo '4 8 16 20 32' ;;
        --interleave-sectors) echo '8 64 512 4096 32768 262144' ;;
    esac
}

# The value of an option of a command, of which a part is typed: of the list, or a file.
_integrity_complete_value() {
    if [ "$2" = --integrity-key-file ]; then
        compopt -o filenames 2>/dev/null
        mapfile -t COMPREPLY < <(compgen -f -- "$3")
    else
        mapfile -t COMPREPLY < <(compgen -W "$(_integrity_values "$1" "$2")" -- "$3")
    fi
}

# The options of a command that are not among the words yet.
_integrity_complete_option() {
    local option left=''
    for option in $(_integrity_options "$1"); do
        case " ${COMP_WORDS[*]} " in
            *" ${option%=} "* | *" ${option%=}="*) [ "${option%=}" = "${2%=}" ] || continue ;;
        esac
        left="$left ${option%=}"
    done
    mapfile -t COMPREPLY < <(compgen -W "$left" -- "$2")
}

_integrity() {
    local word=${COMP_WORDS[COMP_CWORD]} before=${COMP_WORDS[COMP_CWORD - 1]} command=${COMP_WORDS[1]}
    COMPREPLY=()
    if [ "$COMP_CWORD" -eq 1 ]; then
        mapfile -t COMPREPLY < <(compgen -W 'format run nbd mirror dump check salvage resize exercise' -- "$word")
        return
    fi
    # bash parts a word at its `=`.
    if [ "$word" = '=' ]; then
        word=''
    elif [ "$before" = '=' ]; then
        before=${COMP_WORDS[COMP_CWORD - 2]}
    fi
    case " $(_integrity_options "$command") " in
        *" $before= "*) _integrity_complete_value "$command" "$before" "$word"; return ;;
    esac
    case $word in
        -*) _integrity_complete_option "$command" "$word" ;;
        *)
            compopt -o filenames 2>/dev/null
            mapfile -t COMPREPLY < <(compgen -f -- "$word")
            ;;
    esac
}

complete -F _integrity integrity
