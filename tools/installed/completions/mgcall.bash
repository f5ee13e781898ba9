# Completions of mgcall, mgexplain and the commands over files for bash: the words of their command lines, and files by what stands at their place.

# Files whose names end so, and folders.
_mgcall_files() {
    local IFS=$'\n'
    compopt -o filenames 2>/dev/null
    COMPREPLY=($(compgen -f -X "!*.$1" -- "$2") $(compgen -d -- "$2"))
}

# What may stand at a place of a command over files: its options first, then a file for each kind.
_mgcall_over_files() {
    local current=$1 place=$2
    shift 2
    local kinds=("$@")
    if [[ $place == 1 && $current == -* ]]; then
        COMPREPLY=($(compgen -W '--help --version' -- "$current"))
    elif [[ $current == -* ]]; then
        COMPREPLY=($(compgen -W '--quiet' -- "$current"))
    elif ((place <= ${#kinds[@]})); then
        _mgcall_files "${kinds[place - 1]}" "$current"
    fi
}

_mgcall() {
    local current=${COMP_WORDS[COMP_CWORD]} place=$COMP_CWORD
    COMPREPLY=()
    case ${1##*/} in
    mgcall)
        case $place,${COMP_WORDS[1]} in
        1,*) COMPREPLY=($(compgen -W 'check run' -- "$current")) ;;
        2,check) COMPREPLY=($(compgen -W '--pieces' -- "$current")) ;;
        2,run) COMPREPLY=($(compgen -W '--workers' -- "$current")) ;;
        esac
        ;;
    mgexplain)
        if ((place == 1)) && [[ $current == -* ]]; then
            COMPREPLY=($(compgen -W '--json --call --strict --help --version' -- "$current"))
        elif ((place > 3)) || [[ $current == -* ]]; then
            COMPREPLY=($(compgen -W '--json --call --strict' -- "$current"))
        else
            _mgcall_over_files "$current" "$place" toml json toml
        fi
        ;;
    mgcall-check) _mgcall_over_files "$current" "$place" toml json ;;
    mgcall-run)
        if ((place > 1)) && [[ $current == -* ]]; then
            COMPREPLY=($(compgen -W '--workers --quiet' -- "$current"))
        else
            _mgcall_over_files "$current" "$place" toml json toml
        fi
        ;;
    mgcall-why)
        if ((place > 3)) || [[ $place == 3 && $current == -* ]]; then
            COMPREPLY=($(compgen -W '--json --dot --coverage --ladder --call --strict --quiet' -- "$current"))
        else
            _mgcall_over_files "$current" "$place" toml json toml
        fi
        ;;
    mgcall-draft)
        if [[ ${COMP_WORDS[COMP_CWORD - 1]} == -o ]]; then
            _mgcall_files json "$current"
        elif ((place > 1)) && [[ $current == -* ]]; then
            COMPREPLY=($(compgen -W '-o --wide --whole --quiet' -- "$current"))
        else
            _mgcall_over_files "$current" "$place" toml json
        fi
        ;;
    mgcall-picture) _mgcall_over_files "$current" "$place" toml ;;
    mgcall-trace)
        case ${COMP_WORDS[COMP_CWORD - 1]} in
        --call) ;;
        --messages) COMPREPLY=($(compgen -d -- "$current")) ;;
        --pcap) _mgcall_files pcapng "$current" ;;
        *)
            if ((place > 3)); then
                COMPREPLY=($(compgen -W '--call --messages --pcap --quiet' -- "$current"))
            else
                _mgcall_over_files "$current" "$place" toml json toml
            fi
            ;;
        esac
        ;;
    mgcall-page)
        if [[ ${COMP_WORDS[COMP_CWORD - 1]} == -o ]]; then
            _mgcall_files html "$current"
        elif ((place > 3)) || [[ $place == 3 && $current == -* ]]; then
            COMPREPLY=($(compgen -W '-o --quiet' -- "$current"))
        else
            _mgcall_over_files "$current" "$place" toml json toml
        fi
        ;;
    mgcall-mistakes)
        if [[ ${COMP_WORDS[COMP_CWORD - 1]} == --certificate ]]; then
            _mgcall_files json "$current"
        elif [[ ${COMP_WORDS[COMP_CWORD - 1]} == --plan ]]; then
            _mgcall_files toml "$current"
        elif ((place > 3)) || [[ $place -gt 1 && $current == -* ]]; then
            COMPREPLY=($(compgen -W '--json --certificate --plan --quiet' -- "$current"))
        else
            _mgcall_over_files "$current" "$place" toml json toml
        fi
        ;;
    esac
}

complete -F _mgcall mgcall mgexplain mgcall-check mgcall-run mgcall-why mgcall-draft mgcall-picture mgcall-trace mgcall-page mgcall-mistakes
