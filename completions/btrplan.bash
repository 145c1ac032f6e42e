# Completion for bash: `source completions/btrplan.bash`, in .bashrc say. It knows the commands and how many files each takes.

_btrplan() {
    local word=${COMP_WORDS[COMP_CWORD]} place=$COMP_CWORD
    local commands='plan check replay show picture script execute repair explain parts checkparts cut generate demo'
    COMPREPLY=()
    [ "${COMP_WORDS[1]-}" != trial ] || place=$((place - 1))
    local command=${COMP_WORDS[COMP_CWORD - place + 1]-} files last end=5
    if [ "$place" = 1 ]; then
        [ "$COMP_CWORD" != 1 ] || commands="$commands trial"
        mapfile -t COMPREPLY < <(compgen -W "$commands" -- "$word")
        return
    fi
    case $command in
        plan | explain) files='2 3 4' last=budget ;;
        check) files='2 3 4' last=strict ;;
        picture | script) files='2 3 4' last= ;;
        replay | show | execute) files='2 3' last= ;;
        repair | checkparts) files='2 3 4 5' last= ;;
        parts) files='2 3 4 5' last=budget end=6 ;;
        cut) files='2 3 5' last= ;;
        generate) files=3 last= ;;
        *) files= last= ;;
    esac
    case " $files " in
        *" $place "*) mapfile -t COMPREPLY < <(compgen -f -- "$word") ;;
        *) [ "$place" != "$end" ] || mapfile -t COMPREPLY < <(compgen -W "$last" -- "$word") ;;
    esac
}

complete -o filenames -F _btrplan btrplan ./btrplan
