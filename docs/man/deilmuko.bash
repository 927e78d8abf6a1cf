# bash completion for deilmuko. Made by tools/make_man from docs/MANUAL.md: change that one.
_deilmuko() {
    local word=${COMP_WORDS[COMP_CWORD]} before=${COMP_WORDS[COMP_CWORD-1]} options=
    if [ "$COMP_CWORD" -eq 1 ]; then
        mapfile -t COMPREPLY < <(compgen -W 'edit split show unstrip run gather exercise' -- "$word")
        return
    fi
    case $before in
    --base-dir) mapfile -t COMPREPLY < <(compgen -d -- "$word"); return ;;
    --dest-dir) mapfile -t COMPREPLY < <(compgen -d -- "$word"); return ;;
    --more-maps) return ;;
    --seed) return ;;
    --list-file) mapfile -t COMPREPLY < <(compgen -f -- "$word"); return ;;
    --max-file) return ;;
    --jobs) return ;;
    esac
    case ${COMP_WORDS[1]} in
    edit) options='--base-dir --dest-dir --more-maps --build-id --seed --list-file --max-file' ;;
    run) options='--base-dir --dest-dir --more-maps --build-id --seed --jobs --skip-refused --max-file' ;;
    gather) options='--dest-dir --jobs' ;;
    esac
    case $word in
    -*) mapfile -t COMPREPLY < <(compgen -W "$options" -- "$word") ;;
    *) mapfile -t COMPREPLY < <(compgen -f -- "$word") ;;
    esac
}
complete -o filenames -F _deilmuko deilmuko
