# shellcheck shell=bash
# What the scripts in this folder share; they source it at the repository's top.

# A folder that they may write into.
scratch=$(mktemp -d)
trap 'rm -rf "$scratch"' EXIT

missing=()

has_package() {
    [ "$(dpkg-query -W -f '${db:Status-Status}' "$1" 2>/dev/null)" = installed ]
}

as_root() {
    if [ "$(id -u)" -eq 0 ]; then
        "$@"
    elif command -v sudo >/dev/null; then
        sudo "$@"
    else
        echo "neither root nor sudo: cannot run $*"
        return 1
    fi
}

# install PACKAGE..: installs what is not there yet; what cannot be had is named, and put into `missing`
install() {
    local package wanted=()
    for package; do
        has_package "$package" || wanted+=("$package")
    done
    [ ${#wanted[@]} -gt 0 ] || return 0
    echo "installing ${wanted[*]}"
    as_root apt-get update >"$scratch/apt" 2>&1 || true
    for package in "${wanted[@]}"; do
        if ! as_root apt-get install -y --no-install-recommends "$package" >"$scratch/apt" 2>&1; then
            echo "MISSING: Debian's package $package cannot be installed:"
            tail -n 2 "$scratch/apt"
            missing+=("$package")
        fi
    done
}

is_missing() {
    [[ " ${missing[*]} " == *" $1 "* ]]
}

# The library's path, in `library`: the one that NANNYSEASON_LIB names, or else built here.
find_library() {
    if [ -n "${NANNYSEASON_LIB:-}" ]; then
        library=$NANNYSEASON_LIB
        echo "library: $library, as NANNYSEASON_LIB says"
    else
        library=$PWD/crates/nannyseason/out/libnannyseason.a
        if ! command -v rt >/dev/null; then
            echo "MISSING: rt, Rattle's command, is not on the PATH, so the library cannot be built and nothing of it is checked"
            exit 2
        fi
        echo "building the library by rt lib; the first time this proves all crates below it, which takes long"
        if ! (cd crates/nannyseason && rt lib) >"$scratch/rt" 2>&1; then
            tail -n 20 "$scratch/rt"
            echo "rt lib failed in crates/nannyseason"
            exit 2
        fi
    fi
    if [ ! -f "$library" ]; then
        echo "there is no $library"
        exit 2
    fi
}

# compile OUTPUT ARGUMENT..: C11, with all warnings; functions are bound at the start, since binding one takes stack
compile() {
    local output=$1
    shift
    gcc -std=c11 -O2 -Wall -Wextra -Wpedantic -I include -o "$output" "$@" -Wl,-z,now
}
