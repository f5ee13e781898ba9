# Completions of mgtool for bash. Written by tools/gate/mgtool from tools/shared/door/declarations.py.

# Files whose names end so, and folders.
_mgtool_files() {
    local IFS=$'\n'
    compopt -o filenames 2>/dev/null
    COMPREPLY=($(compgen -f -X "!*.$1" -- "$2") $(compgen -d -- "$2"))
}

_mgtool() {
    local current=${COMP_WORDS[COMP_CWORD]} before=${COMP_WORDS[COMP_CWORD - 1]} command= at=1 files=0 many=0 options='--help --version --proved' kinds=
    COMPREPLY=()
    while ((at < COMP_CWORD)); do
        case ${COMP_WORDS[at]} in
        --certificate | --format | --pieces | --call | --scenarios | -k | --record | -o | --intents | --workers | --messages | --pcap | --changes) ((at++)) ;;
        -?*) ;;
        *) if [[ $command ]]; then ((files++)); else command=${COMP_WORDS[at]}; fi ;;
        esac
        ((at++))
    done
    case $command in
    '') kinds=command ;;
    check) options='--certificate --strict --format --pieces --quiet --help --version --proved' kinds='toml' many=1 ;;
    why) options='--certificate --json --dot --ladder --call --strict --quiet --help --version --proved' kinds='toml toml' ;;
    test) options='--certificate --scenarios -k --faults --record --format --quiet --help --version --proved' kinds='toml' ;;
    plan) options='--certificate --scenarios -k --quiet --help --version --proved' kinds='toml' ;;
    draft) options='--certificate -o --wide --whole --quiet --help --version --proved' kinds='toml' ;;
    coverage) options='--certificate --intents --brief --format --quiet --help --version --proved' kinds='toml' ;;
    run) options='--certificate --workers --quiet --help --version --proved' kinds='toml toml' ;;
    trace) options='--certificate --call --messages --pcap --quiet --help --version --proved' kinds='toml toml' ;;
    page) options='--certificate -o --quiet --help --version --proved' kinds='toml toml' ;;
    picture) options='--quiet --help --version --proved' kinds='toml' ;;
    watch) options='--certificate --changes --quiet --help --version --proved' kinds='toml' ;;
    esac
    case $before in
    --certificate) _mgtool_files json "$current" ;;
    --pieces) ;;
    --call) ;;
    --scenarios) _mgtool_files toml "$current" ;;
    -k) ;;
    --record) _mgtool_files toml "$current" ;;
    --intents) _mgtool_files toml "$current" ;;
    --workers) ;;
    --messages) COMPREPLY=($(compgen -d -- "$current")) ;;
    --pcap) _mgtool_files pcapng "$current" ;;
    --changes) ;;
    --format) case $command in check) COMPREPLY=($(compgen -W 'text json sarif junit' -- "$current")) ;; test) COMPREPLY=($(compgen -W 'text json junit' -- "$current")) ;; coverage) COMPREPLY=($(compgen -W 'text json' -- "$current")) ;; esac ;;
    -o) case $command in draft) _mgtool_files json "$current" ;; page) _mgtool_files html "$current" ;; esac ;;
    *)
        kinds=($kinds)
        if [[ $current == -* ]]; then
            COMPREPLY=($(compgen -W "$options" -- "$current"))
        elif [[ $kinds == command ]]; then
            COMPREPLY=($(compgen -W 'check why test plan draft coverage run trace page picture watch' -- "$current"))
        elif ((many || files < ${#kinds[@]})); then
            _mgtool_files "${kinds[many ? 0 : files]}" "$current"
        fi
        ;;
    esac
}

complete -F _mgtool mgtool
