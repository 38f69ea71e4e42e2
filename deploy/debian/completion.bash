# Completes the words of weblocks(1).

_weblocks() {
    local current=$2 previous=$3 command="" word
    for word in "${COMP_WORDS[@]:1:COMP_CWORD-1}"; do
        if [[ $word != -* ]]; then
            command=$word
            break
        fi
    done
    COMPREPLY=()
    case $previous in
    --token-file | --epoch-file)
        mapfile -t COMPREPLY < <(compgen -f -- "$current")
        compopt -o filenames 2>/dev/null
        return
        ;;
    --log)
        mapfile -t COMPREPLY < <(compgen -W "off error warn info debug trace" -- "$current")
        return
        ;;
    --listen | --connections | --per-address | --managers | --idle | --loops | --allow-origin | --status \
        | --status-host | --epoch | --port | --clients)
        return
        ;;
    esac
    local commands="run audit timeline serve client daemon help" words
    case $command in
    "") words="$commands --help -h --version -V" ;;
    run | audit | timeline) words="--help -h" ;;
    serve) words="--port --clients --help -h" ;;
    client) words="--port --help -h" ;;
    daemon)
        words="--listen --connections --per-address --managers --idle --loops --token-file --open --allow-origin"
        words+=" --sharded --status --status-host --epoch --epoch-file --while-input --log --help -h"
        ;;
    help) words=$commands ;;
    *) return ;;
    esac
    mapfile -t COMPREPLY < <(compgen -W "$words" -- "$current")
}

complete -F _weblocks weblocks
