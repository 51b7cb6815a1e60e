# Completion of wsched and of the programs beside it, for bash:
# /usr/share/bash-completion/completions/wsched.

# The modules that a word may name. One that is a plugin becomes NAME:1:100000:FILE, to be changed
# as wanted. The shell breaks words at colons, so behind the third one it completes FILE alone.
_wsched_modules() {
    local cur=$1 as=$2 file name
    while IFS= read -r file; do
        if [ -d "$file" ]; then
            COMPREPLY+=("$file/")
        elif [ "$as" = spec ]; then
            name=${file##*/}
            COMPREPLY+=("${name%.wasm}:1:100000:$file")
        else
            COMPREPLY+=("$file")
        fi
    done < <(compgen -f -X '!*.wasm' -- "$cur"; compgen -d -- "$cur")
}

_wsched_files() {
    mapfile -t COMPREPLY < <(compgen -f -- "$1")
}

_wsched_options() {
    mapfile -t COMPREPLY < <(compgen -W "$1" -- "$2")
}

_wsched() {
    local cur=${COMP_WORDS[COMP_CWORD]} prev=${COMP_WORDS[COMP_CWORD - 1]} command=${COMP_WORDS[1]} options=
    COMPREPLY=()
    if [ "$COMP_CWORD" = 1 ]; then
        _wsched_options "run explain storm check translate live version" "$cur"
        return
    fi
    case $prev in
        --workers | --cycles | --binders | --scheduler | --labels) return ;;
    esac
    case $command in
        run | explain) options=--workers ;;
        storm) options="--cycles --binders --flaky" ;;
        translate) options="--scheduler --labels --by-uid --answers" ;;
        live) options="--scheduler --labels" ;;
        check) _wsched_modules "$cur" file; return ;;
        *) return ;;
    esac
    case $cur in
        -*) _wsched_options "$options" "$cur" ;;
        *) [ "$command" = translate ] || [ "$command" = live ] || _wsched_modules "$cur" spec ;;
    esac
}

# The programs beside it, by the names that the package gives them.
_wsched_beside() {
    local cur=${COMP_WORDS[COMP_CWORD]} prev=${COMP_WORDS[COMP_CWORD - 1]} name=${COMP_WORDS[0]##*/} options=
    COMPREPLY=()
    case $prev in
        --rules | --settings | --from | --page | --script) _wsched_files "$cur"; return ;;
        --kubeconfig | --record | --tls-cert | --tls-key | --client-ca | --token-file | --plugins | --wsched) _wsched_files "$cur"; return ;;
        --scheduler | --nodes | --labels | --most | -n | --namespace) return ;;
        --workers | --binders | --share | --node-affinity | --lease | --rest | --listen | --max-stale) return ;;
        --on-error) _wsched_options "error reject-node" "$cur"; return ;;
    esac
    case $name in
        wsched-scheduler)
            options="--scheduler --nodes --share --rules --settings --labels --node-affinity --plugins --wsched --workers --binders"
            options="$options --kubeconfig --lease --rest --listen --tls-cert --tls-key --token-file --record --dry-run --verbose --help" ;;
        wsched-extender)
            options="--listen --on-error --max-stale --rules --settings --labels --wsched --workers --kubeconfig"
            options="$options --tls-cert --tls-key --client-ca --token-file --verbose --help" ;;
        wsched-plan) options="--json --script --page --rules --settings --labels --scheduler --from --nodes --help" ;;
        wsched-why) options="--namespace --rules --settings --labels --from --nodes --help" ;;
        wsched-what-if) options="--page --scheduler --labels --rules --" ;;
        wsched-lint) options="--most --help" ;;
        wsched-report) options="--scheduler --labels --rules -- --help" ;;
    esac
    case $name:$cur in
        *:-*) _wsched_options "$options" "$cur" ;;
        wsched-plan:* | wsched-scheduler:* | wsched-extender:*) _wsched_modules "$cur" spec ;;
        wsched-why:*) [ "$COMP_CWORD" = 1 ] || _wsched_modules "$cur" spec ;;
        wsched-what-if:* | wsched-report:*) _wsched_files "$cur" ;;
        wsched-lint:*) mapfile -t COMPREPLY < <(compgen -f -X '!*.jsonl' -- "$cur"; compgen -d -S / -- "$cur") ;;
    esac
}

complete -o nospace -F _wsched wsched
complete -F _wsched_beside wsched-plan wsched-why wsched-what-if wsched-lint wsched-report wsched-scheduler wsched-extender
