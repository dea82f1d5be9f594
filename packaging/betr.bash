# Completion of `betr` for bash: its options, and files.
_betr() {
    local word=${COMP_WORDS[COMP_CWORD]} before=${COMP_WORDS[COMP_CWORD - 1]}
    case $before in
    --flushers | --steps | --fanout | --pending | --leaf) return ;;
    --load | --dot) word=${word#=} ;;
    *)
        if [[ $word == -* ]]; then
            mapfile -t COMPREPLY < <(compgen -W "--flushers --steps --fanout --pending --leaf --load --image --dot --strict --explain --help --version" -- "$word")
            return
        fi
        ;;
    esac
    compopt -o filenames 2> /dev/null
    mapfile -t COMPREPLY < <(compgen -f -- "$word")
}
complete -F _betr betr
