# Completion of simula and simula-show for bash: a command, then options of a run and a source.
_simula() {
    local word=${COMP_WORDS[COMP_CWORD]} commands="run check compile exec list print gen xref" first=1
    [ "${COMP_WORDS[0]##*/}" = simula-show ] && commands="run check explain"
    # the launcher of a checkout knows more words
    if [ -f "$(dirname -- "${COMP_WORDS[0]}")/crates.txt" ]; then
        commands="run check compile exec list print gen xref show explain try build install version help"
    fi
    [ "${COMP_WORDS[1]-}" = show ] && first=2
    COMPREPLY=()
    if [ "$COMP_CWORD" -eq 2 ] && [ "$first" = 2 ]; then
        mapfile -t COMPREPLY < <(compgen -W "run check" -- "$word")
    elif [ "$COMP_CWORD" -eq 1 ]; then
        mapfile -t COMPREPLY < <(compgen -W "$commands" -- "$word")
    elif [[ ${COMP_WORDS[first]} = @(run|exec) && $word = -* ]]; then
        mapfile -t COMPREPLY < <(compgen -W "--storage --ticks --in-length --out-length" -- "$word")
    elif [ "$COMP_CWORD" -eq $((first + 1)) ] || [[ ${COMP_WORDS[first]} = @(run|exec) ]]; then
        case ${COMP_WORDS[first]} in
            run | check | compile | list | print | xref | try)
                mapfile -t COMPREPLY < <(compgen -f -X '!*.sim' -- "$word"; compgen -d -S / -- "$word")
                ;;
            exec)
                mapfile -t COMPREPLY < <(compgen -f -- "$word")
                ;;
            install)
                mapfile -t COMPREPLY < <(compgen -d -S / -- "$word")
                ;;
        esac
    fi
}
complete -o filenames -F _simula simula simula-show
