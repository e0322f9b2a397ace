# Completions of bor for bash: source this file. tools/pages writes it from what the program says of itself.
_bor() {
    local current=${COMP_WORDS[COMP_CWORD]} before='' command='' words='' paths='' values='' files=0
    COMPREPLY=()
    if ((COMP_CWORD == 1)); then
        mapfile -t COMPREPLY < <(compgen -W 'check init exchange serve report migrate help --help' -- "$current")
        return
    fi
    before=${COMP_WORDS[COMP_CWORD - 1]} command=${COMP_WORDS[1]}
    case $command in
        check)
            words='--help' paths='' values='' files=1 ;;
        init)
            words='--db --registrar --registrar-file --day --help' paths='--db --registrar-file' values='--registrar --day' files=0 ;;
        exchange)
            words='--db --registrar --registrar-file --day --help' paths='--db --registrar-file' values='--registrar --day' files=1 ;;
        serve)
            words='--db --port --connections --memory --log --help' paths='--db' values='--port --connections --memory' files=0 ;;
        report)
            words='--db --viewer --agent --declaration --record --date --evidence --help' paths='--db' values='--viewer --agent --declaration --record --date' files=0 ;;
        migrate)
            words='--db --help' paths='--db' values='' files=0 ;;
        help)
            ((COMP_CWORD > 2)) || words='check init exchange serve report migrate help' ;;
    esac
    case " $values " in *" $before "*) return ;; esac
    case " $paths " in
        *" $before "*) mapfile -t COMPREPLY < <(compgen -f -- "$current") ;;
        *)
            mapfile -t COMPREPLY < <(compgen -W "$words" -- "$current")
            [[ $current == -* ]] || ((files == 0)) || mapfile -t COMPREPLY < <(compgen -f -- "$current")
            ;;
    esac
}
complete -o filenames -F _bor bor ./bor
