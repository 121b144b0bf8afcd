# Completion of `flow` for bash: source this file.
_flow() {
    local word=${COMP_WORDS[COMP_CWORD]} words= files= file
    if [ "$COMP_CWORD" = 1 ]; then
        mapfile -t COMPREPLY < <(compgen -W 'check compile format run exec bench shrink debug upgrade build help --version' -- "$word")
        return
    fi
    case ${COMP_WORDS[1]} in
        check) words='' files='*.flow' ;;
        compile) words='' files='*.flow' ;;
        format) words='' files='*.flow' ;;
        run) words='--frames --monitor' files='*.flow *.world' ;;
        exec) words='--frames --monitor' files='*.classes *.world' ;;
        bench) words='' files='' ;;
        shrink) words='--monitor' files='*.flow *.world' ;;
        debug) words='' files='*.flow *.world' ;;
        upgrade) words='' files='*.classes' ;;
    esac
    mapfile -t COMPREPLY < <(compgen -W "$words" -- "$word"; compgen -d -- "$word"; set -f; for file in $files; do compgen -f -X "!$file" -- "$word"; done; set +f)
}
complete -o filenames -F _flow flow ./flow
