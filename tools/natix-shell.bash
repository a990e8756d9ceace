# Completion of natix-shell for bash: stores, commands, files, and the documents of a store that nobody has open.

_natix_shell() {
    local cur prev words cword store= command= at=0 i
    _init_completion || return
    for ((i = 1; i < cword; i++)); do
        case ${words[i]} in
            --create | --wait | -c) [ -n "$store" ] || ((i++)) ;;
            -*) ;;
            *)
                if [ -z "$store" ]; then
                    store=${words[i]}
                elif [ -z "$command" ]; then
                    command=${words[i]}
                else
                    ((at++))
                fi
                ;;
        esac
    done
    if [ -z "$store" ]; then
        case $prev in
            --create) COMPREPLY=($(compgen -W "256 128 64 16" -- "$cur")) ;;
            --wait | -c) ;;
            *)
                COMPREPLY=($(compgen -W "--create --wait --go-on -c --help" -- "$cur"))
                if [[ $cur != -* ]]; then
                    _filedir
                    for i in "${!COMPREPLY[@]}"; do
                        [[ ${COMPREPLY[i]} != *.log ]] || unset "COMPREPLY[i]"
                    done
                fi
                ;;
        esac
        return
    fi
    if [ -z "$command" ]; then
        COMPREPLY=($(compgen -W "ls tree show get xpath find load put save rm mv cp insert delete retext graft replace move copy relabel layout rule rules checkpoint
            dump restore compact backup restore-backup help" -- "$cur"))
        return
    fi
    if [[ $cur == -* ]]; then
        case $command in
            load) COMPREPLY=($(compgen -W "-f --keep --as --json" -- "$cur")) ;;
            put | graft | replace) COMPREPLY=($(compgen -W "--keep" -- "$cur")) ;;
            ls | tree | xpath | find | layout | rules) COMPREPLY=($(compgen -W "--json" -- "$cur")) ;;
            compact) COMPREPLY=($(compgen -W "--k" -- "$cur")) ;;
        esac
        return
    fi
    case $command:$at in
        load:* | save:1 | put:1 | dump:* | restore:* | restore-backup:* | compact:* | backup:*) _filedir ;;
        ls:0 | tree:0 | show:0 | get:0 | xpath:0 | find:0 | save:0 | put:0 | rm:* | mv:0 | cp:0 | insert:0 | delete:0 | retext:0 | graft:0 | replace:0 | move:0 | copy:0 | relabel:0 | layout:0)
            COMPREPLY=($(compgen -W "$(natix-shell "$store" ls 2> /dev/null | sed 's|/ (.*||')" -- "$cur"))
            ;;
    esac
}
complete -F _natix_shell natix-shell
