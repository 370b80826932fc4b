#!/usr/bin/env bash
# Measures the library's wraps beside nettle's and OpenSSL's, and the publishing and reading of a large rekey file; installs what it
# needs from Debian's packages. Prints tables for a Markdown page.
#
# usage: tools/benchmark.sh [ROUNDS [PUBLISHINGS]]    (300 rounds of 100 calls, 50 publishings)
# NANNYSEASON_LIB=FILE: measures that library, and builds none
set -euo pipefail

[ -z "${NANNYSEASON_LIB:-}" ] || NANNYSEASON_LIB=$(realpath "$NANNYSEASON_LIB")
cd "$(dirname "$0")/.."
source tools/common.sh

install gcc libc6-dev libssl-dev nettle-dev
if [ ${#missing[@]} -gt 0 ]; then
    echo "NOT MEASURED: anything, without ${missing[*]}"
    exit 2
fi
find_library
compile "$scratch/benchmark" tools/benchmark.c "$library" -lcrypto -lnettle

processor=$(lscpu | sed -n 's/^Model name: *//p' | head -n 1)
if grep -qw aes /proc/cpuinfo; then aes='with AES instructions'; else aes='without AES instructions'; fi
echo "Date: $(date +%F). Processor: $processor, $(nproc) of them, $aes. Load before: $(cut -d ' ' -f 1-3 /proc/loadavg)."
echo "OpenSSL $(dpkg-query -W -f '${Version}' libssl-dev), nettle $(dpkg-query -W -f '${Version}' nettle-dev)," \
    "$(gcc --version | head -n 1)."
echo
"$scratch/benchmark" "${1:-300}"
echo

if ! command -v rt >/dev/null; then
    echo "NOT MEASURED: publishing and reading: rt, Rattle's command, is not on the PATH"
    exit 2
fi
echo "Publishing 128 arrivals at once under the star strategy, and one player's read of that file:"
echo
if ! (cd crates/stopwatch && rt run -- "${2:-50}") >"$scratch/told" 2>"$scratch/rt"; then
    tail -n 20 "$scratch/rt"
    cat "$scratch/told"
    echo "rt run failed in crates/stopwatch"
    exit 2
fi
sed 's/^/    /' "$scratch/told"
echo
echo "Load after: $(cut -d ' ' -f 1-3 /proc/loadavg)."
