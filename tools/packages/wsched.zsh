#compdef wsched wsched-plan wsched-why wsched-what-if wsched-lint wsched-report wsched-scheduler wsched-extender
# Completion of wsched and of the programs beside it, for zsh:
# /usr/share/zsh/vendor-completions/_wsched.

# A module's file as the word of a plugin, NAME:1:100000:FILE, to be changed as wanted; behind three
# colons the file alone.
_wsched_spec() {
    if compset -P '*:*:*:'; then
        _files -g '*.wasm'
        return
    fi
    local -a modules specs
    local it
    modules=(${PREFIX}*.wasm(N) ${PREFIX}*/(N))
    for it in $modules; do
        [[ -d $it ]] && specs+=("$it/") || specs+=("${it:t:r}:1:100000:$it")
    done
    compadd -U -S '' -a specs
}

_wsched() {
    local -a commands
    commands=(
        'run:read a script, and write the answers'
        'explain:the same, and of each decision a line for each node'
        'storm:have many threads work off a script, and audit what they come to'
        'check:say whether a module would be accepted'
        'translate:objects of the Kubernetes API as lines of a script'
        'live:which binds may be asked for'
        'version:name, version and kit'
    )
    local rules=('--rules[a file of rules and settings]:file:_files')
    local told=('--scheduler[whose pods, of lines for wsched live]:name:' '--labels[the labels that rules read, of the same]:keys:')
    local cluster=(
        '--settings[the settings of the site]:file:_files'
        '--from[what kubectl get -o json wrote]:file:_files'
        '--nodes[only these nodes]:selector:'
        '--labels[the labels that rules read]:keys:'
    )
    case $service in
        wsched-plan)
            _arguments "$rules[@]" "$cluster[@]" '--scheduler[whose pods]:name:' '--json[one object]' '--script[write the script]:file:_files' '--page[write a page]:file:_files' '--help[the words]' '*:plugin:_wsched_spec' ;;
        wsched-why)
            _arguments "$rules[@]" "$cluster[@]" '(-n --namespace)'{-n,--namespace}'[of the pod]:namespace:' '--help[the words]' '1:pod:' '*:plugin:_wsched_spec' ;;
        wsched-what-if)
            _arguments '--page[write both runs to a page]:file:_files' "$rules[@]" "$told[@]" '1:record:_files' '*:plugin:_wsched_spec' ;;
        wsched-lint)
            _arguments '--most[how many faults are told]:number:' '--help[the words]' '*:script:_files' ;;
        wsched-report)
            _arguments "$rules[@]" "$told[@]" '--help[the words]' '1:script:_files' '2:output:_files' '*:plugin:_wsched_spec' ;;
        wsched-scheduler)
            _arguments "$rules[@]" '--scheduler[whose pods]:name:' '--nodes[only these nodes]:selector:' '--share[instance I of N]:I/N:' \
                '--settings[the settings of the site]:file:_files' '--labels[the labels that rules read]:keys:' \
                '--node-affinity[tell selectors and affinity, by this weight]:weight:' '--plugins[where node_affinity.wasm is]:folder:_files -/' \
                '--wsched[the program]:file:_files' '--workers[how many share a decision]:number:' '--binders[binds at once]:number:' \
                '--kubeconfig[the way to the API server]:file:_files' '--lease[that replicas share]:NAMESPACE/NAME:' \
                '--rest[behind one that was killed]:seconds:' \
                '--listen[serve metrics and health]:[HOST]\:PORT:' '--tls-cert[by TLS]:file:_files' '--tls-key[its key]:file:_files' \
                '--token-file[whom metrics are for]:file:_files' '--record[what was told and answered]:file:_files' \
                '--dry-run[write nothing to the cluster]' '--verbose[log more]' '--help[the words]' '*:plugin:_wsched_spec' ;;
        wsched-extender)
            _arguments "$rules[@]" '--listen[where it is asked]:[HOST]\:PORT:' '--on-error[where a rule says nothing]:what:(error reject-node)' \
                '--max-stale[nothing is answered by what is older]:seconds:' '--settings[the settings of the site]:file:_files' \
                '--labels[the labels that rules read]:keys:' '--wsched[the program]:file:_files' '--workers[of each wsched]:number:' \
                '--kubeconfig[the way to the API server]:file:_files' '--tls-cert[be asked by TLS]:file:_files' '--tls-key[its key]:file:_files' \
                '--client-ca[whose certificates are asked for]:file:_files' '--token-file[whom metrics are for]:file:_files' '--verbose[log more]' '--help[the words]' '*:plugin:_wsched_spec' ;;
        wsched)
            if (( CURRENT == 2 )); then
                _describe command commands
                return
            fi
            local command=$words[2]
            shift words
            (( CURRENT-- ))
            case $command in
                run | explain) _arguments '--workers[how many share a decision]:number:' '*:plugin:_wsched_spec' ;;
                storm)
                    _arguments '--cycles[threads that make cycles]:number:' '--binders[threads that bind]:number:' '--flaky[every third bind fails]' '*:plugin:_wsched_spec' ;;
                live) _arguments '--scheduler[whose pods]:name:' '--labels[labels that rules read]:keys:' ;;
                check) _arguments '1:module:_files -g "*.wasm"' ;;
                translate) _arguments '--scheduler[whose pods]:name:' '--labels[labels that rules read]:keys:' '--by-uid[call pods by their uid]' '--answers[an object for each]' ;;
            esac ;;
    esac
}

_wsched "$@"
