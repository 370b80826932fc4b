#!/usr/bin/env bash
# Builds the library, runs the example, and compares the library with OpenSSL and nettle over random cases; installs what it needs from
# Debian's packages. Its last line counts what was compared. The status is 0 only if all was checked, and agreed.
#
# usage: tools/cross_check.sh [CASES [SEED]]    (100000 cases for each kind of wrap)
# NANNYSEASON_LIB=FILE: checks that library, and builds none
set -euo pipefail

[ -z "${NANNYSEASON_LIB:-}" ] || NANNYSEASON_LIB=$(realpath "$NANNYSEASON_LIB")
cd "$(dirname "$0")/.."
source tools/common.sh

install gcc libc6-dev libssl-dev nettle-dev
if is_missing gcc || is_missing libc6-dev; then
    echo "NOT CHECKED: anything, without a C compiler and its headers"
    exit 2
fi
find_library
compile "$scratch/example" docs/example.c "$library"
"$scratch/example"
if is_missing libssl-dev; then
    echo "NOT CHECKED: the library against OpenSSL, and what its calls refuse, leave and clear, without libssl-dev; only the example ran"
    exit 2
fi
if is_missing nettle-dev; then
    echo "NOT CHECKED: the sealed bytes against nettle, without nettle-dev; all else follows"
    compile "$scratch/cross_check" -D NO_NETTLE tools/cross_check.c "$library" -lcrypto
    "$scratch/cross_check" "$@"
    exit 2
fi
compile "$scratch/cross_check" tools/cross_check.c "$library" -lcrypto -lnettle
"$scratch/cross_check" "$@"
