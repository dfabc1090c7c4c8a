# For scripts that measure calls of the library. To be sourced.
#
#   run_scratch NAME DEP..   takes a program from standard input, which stands on these crates, and runs it
#                            without any proof in a scratch copy of the repository, once
set -eu
root=$(dirname "$(dirname "$(readlink -f "${BASH_SOURCE[0]}")")")
scratch=$(mktemp -d)
trap 'rm -rf "$scratch"' EXIT

run_scratch() { # NAME DEP..
    local name=$1
    shift
    (cd "$root" && tar cf - --exclude=out crates crates.txt) | tar xf - -C "$scratch"
    printf '%s: %s\n' "$name" "$*" >>"$scratch/crates.txt"
    mkdir -p "$scratch/crates/$name/src"
    cat >"$scratch/crates/$name/src/main.rt"
    (cd "$scratch/crates/$name" && rt try --seconds 600) 2>"$scratch/log" || {
        tail -5 "$scratch/log" >&2
        return 1
    }
}
