# Completes the words of zevkhadun in bash. It is written by tools/completions/write.py from the help texts.
_zevkhadun() {
    local word=${COMP_WORDS[COMP_CWORD]} before=${COMP_WORDS[COMP_CWORD - 1]} command='' place=0 words='' files='' i
    # The value of an option may follow an equals sign, which is a word of its own.
    if [ "$word" = '=' ]; then
        word=''
    elif [ "$before" = '=' ]; then
        before=${COMP_WORDS[COMP_CWORD - 2]}
    fi
    for ((i = 1; i < COMP_CWORD; i++)); do
        case "$command ${COMP_WORDS[i]}" in
            'pack --files-from' | \
                'pack --expect' | \
                'pack --framing' | \
                'pack --block-size' | \
                'pack --period' | \
                'append --files-from' | \
                'append --expect' | \
                'append --framing' | \
                'append --block-size' | \
                'get --framing' | \
                'cat --without' | \
                'cat --framing' | \
                'merge --without' | \
                'merge --block-size' | \
                'merge --period' | \
                'inspect --html' | \
                'log append --files-from' | \
                'log append --sync' | \
                'log append --expect' | \
                'log append --framing' | \
                'log append --seal-size' | \
                'log get --framing' | \
                'log cat --from' | \
                'log cat --last' | \
                'log cat --framing' | \
                'log compact --size' | \
                'log drop --before')
                if [ "${COMP_WORDS[i + 1]}" = '=' ]; then ((i++)); fi
                ((i++))
                ;;
            *' -'?*) ;;
            ' '*) command=${COMP_WORDS[i]} ;;
            'log append' | 'log get' | 'log cat' | 'log stat' | 'log verify' | 'log repair' | 'log seal' | 'log compact' | 'log drop') command="$command ${COMP_WORDS[i]}" ;;
            *) ((place++)) ;;
        esac
    done
    case "$command $before" in
        'pack --files-from') files=yes ;;
        'pack --expect') : ;;
        'pack --framing') words='lines text nul lengths files' ;;
        'pack --block-size') : ;;
        'pack --period') : ;;
        'append --files-from') files=yes ;;
        'append --expect') : ;;
        'append --framing') words='lines text nul lengths files' ;;
        'append --block-size') : ;;
        'get --framing') words='lines text nul lengths files' ;;
        'cat --without') : ;;
        'cat --framing') words='lines text nul lengths files' ;;
        'merge --without') files=yes ;;
        'merge --block-size') : ;;
        'merge --period') : ;;
        'inspect --html') files=yes ;;
        'log append --files-from') files=yes ;;
        'log append --sync') words='every batch end' ;;
        'log append --expect') : ;;
        'log append --framing') words='lines text nul lengths files' ;;
        'log append --seal-size') : ;;
        'log get --framing') words='lines text nul lengths files' ;;
        'log cat --from') : ;;
        'log cat --last') : ;;
        'log cat --framing') words='lines text nul lengths files' ;;
        'log compact --size') : ;;
        'log drop --before') : ;;
        *)
            case "$command $place $word" in
                ' 0 -'*) words='-h --help -V --version' ;;
                ' 0 '*) words='pack append get cat stat verify merge export inspect log help' ;;
                'help 0 '*) words='pack append get cat stat verify merge export inspect log help' ;;
                'log drop '*' -'*) words='--before -q --quiet -h --help' ;;
                'log drop 0 '*) files=yes ;;
                'log compact '*' -'*) words='--size -q --quiet -h --help' ;;
                'log compact 0 '*) files=yes ;;
                'log seal '*' -'*) words='-q --quiet -h --help' ;;
                'log seal 0 '*) files=yes ;;
                'log repair '*' -'*) words='-h --help' ;;
                'log repair 0 '*) files=yes ;;
                'log verify '*' -'*) words='-q --quiet -h --help' ;;
                'log verify '*) files=yes ;;
                'log stat '*' -'*) words='--json -h --help' ;;
                'log stat '*) files=yes ;;
                'log cat '*' -'*) words='--from --last -f --follow --number --json --framing -h --help' ;;
                'log cat 0 '*) files=yes ;;
                'log get '*' -'*) words='--number --json --framing -h --help' ;;
                'log get 0 '*) files=yes ;;
                'log append '*' -'*) words='--files-from -0 --null --sync --expect --number --framing --seal-size --two-syncs -q --quiet -h --help' ;;
                'log append 0 '*) files=yes ;;
                'log append '*) files=yes ;;
                'log '*' -'*) words='-h --help' ;;
                'log 0 '*) words='append get cat stat verify repair seal compact drop help' ;;
                'inspect '*' -'*) words='--html --replace --tantivy -h --help' ;;
                'inspect 0 '*) files=yes ;;
                'inspect 1 '*) files=yes ;;
                'export '*' -'*) words='--tantivy --replace -q --quiet -h --help' ;;
                'export 0 '*) files=yes ;;
                'export 1 '*) files=yes ;;
                'merge '*' -'*) words='--without --replace --block-size --period --tantivy -q --quiet -h --help' ;;
                'merge 0 '*) files=yes ;;
                'merge '*) files=yes ;;
                'verify '*' -'*) words='--list --json --tantivy -q --quiet -h --help' ;;
                'verify '*) files=yes ;;
                'stat '*' -'*) words='--json --tantivy -h --help' ;;
                'stat '*) files=yes ;;
                'cat '*' -'*) words='--without --keep-going --number --json --framing --tantivy -h --help' ;;
                'cat 0 '*) files=yes ;;
                'get '*' -'*) words='--number --json --framing --tantivy -h --help' ;;
                'get 0 '*) files=yes ;;
                'append '*' -'*) words='--files-from -0 --null --expect --framing --block-size -q --quiet -h --help' ;;
                'append 0 '*) files=yes ;;
                'append '*) files=yes ;;
                'pack '*' -'*) words='--files-from -0 --null --replace --expect --framing --block-size --period -q --quiet -h --help' ;;
                'pack 0 '*) files=yes ;;
                'pack '*) files=yes ;;
            esac
            ;;
    esac
    if [ "$files" ]; then
        mapfile -t COMPREPLY < <(compgen -f -- "$word")
    else
        mapfile -t COMPREPLY < <(compgen -W "$words" -- "$word")
    fi
}
complete -o filenames -F _zevkhadun zevkhadun
