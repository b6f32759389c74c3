#!/usr/bin/env bash
# Measures hoofrun, the orphan list and the bound of a delete against SQLite in memory, on the same bytes.
# usage: bench/run.sh [CALLS]      calls of each input, 10,000 if not given
#        bench/run.sh lists        the orphan lists alone
#        bench/run.sh bounds       the bounds of a delete alone
#        bench/run.sh scans        rows gone through, with plain and with folded columns, alone
# hoofrun is the one that $HOOFRUN names, or crates/hoofrun/out/hoofrun; the library that answers
# questions is the one that $CAPI names, or target/staticlib/libcapi.a.
set -euo pipefail
cd "$(dirname "$0")/.."

calls=${1:-10000}
hoofrun=${HOOFRUN:-crates/hoofrun/out/hoofrun}
capi=${CAPI:-target/staticlib/libcapi.a}
folder=target/bench

if [ $# -gt 1 ] || ! [[ $calls =~ ^([1-9][0-9]*|lists|bounds|scans)$ ]]; then
    echo "usage: bench/run.sh [CALLS | lists | bounds | scans]" >&2
    exit 2
fi
if ! [[ $calls =~ ^(lists|bounds)$ ]] && ! [ -x "$hoofrun" ]; then
    echo "bench/run.sh: $hoofrun is not there: './run-example.sh' builds it" >&2
    exit 1
fi
if ! [ -e "$capi" ]; then
    echo "bench/run.sh: $capi is not there: 'tools/library.sh' builds it" >&2
    exit 1
fi
if ! command -v gcc >/dev/null || ! [ -e /usr/include/sqlite3.h ]; then
    as_root=()
    [ "$(id -u)" -eq 0 ] || as_root=(sudo)
    echo "bench/run.sh: installing Debian's gcc and libsqlite3-dev" >&2
    "${as_root[@]}" apt-get update >&2
    "${as_root[@]}" env DEBIAN_FRONTEND=noninteractive \
        apt-get install -y --no-install-recommends gcc libc6-dev libsqlite3-dev >&2
fi

mkdir -p "$folder"
compile=(gcc -std=c11 -O2 -Wall -Wextra -Iinclude)
"${compile[@]}" -o "$folder/sqlite_side" bench/sqlite_side.c -lsqlite3
"${compile[@]}" -o "$folder/engine_side" bench/engine_side.c "$capi"

# The table of a question, by the file of that name.
question() {
    python3 "bench/$1.py" "$folder/engine_side" "$folder/sqlite_side" "$folder"
}

case $calls in
scans) python3 bench/scans.py "$hoofrun" "$folder/sqlite_side" "$folder" ;;
lists | bounds) question "$calls" ;;
*)
    python3 bench/measure.py "$hoofrun" "$folder/sqlite_side" "$folder" "$calls"
    echo
    question lists
    echo
    question bounds
    ;;
esac
