# What the programs of this folder call. Each runs by `bash` with this file read before it, in an empty folder of a
# mount. The first line of each says what it does.
set -eu -o pipefail
trap 'echo "line $LINENO of the program failed" >&2' ERR

# Whether a command fails: `!` alone would end no program.
fails() {
    if "$@"; then return 1; fi
}
