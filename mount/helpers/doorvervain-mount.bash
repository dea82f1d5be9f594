# Completion of `doorvervain-mount` for bash: its options, files and folders.
_doorvervain_mount() {
    local word=${COMP_WORDS[COMP_CWORD]} before=${COMP_WORDS[COMP_CWORD - 1]}
    case $before in
    --size | --log-size | --steps | --busy-poll | --restore | --diff | --send | --replica | --prefix | --user) return ;;
    --load | --image | --trace | --cacert | --cert | --key | --password-file) mapfile -t COMPREPLY < <(compgen -f -- "$word") ;;
    *)
        if [[ $word == -* ]]; then
            mapfile -t COMPREPLY < <(compgen -W "--store --sync --log-size --replica --prefix --cacert --cert \
                --key --user --password-file --load --image --size --trace --steps --busy-poll --trust-attributes --nosuid --nodev \
                --allow-other --foreground --restore --diff --send --receive --unmount --status --json --dump-log --rescue --version --help" -- "$word")
            return
        fi
        mapfile -t COMPREPLY < <(compgen -d -- "$word")
        ;;
    esac
    compopt -o filenames 2> /dev/null
}
complete -F _doorvervain_mount doorvervain-mount
