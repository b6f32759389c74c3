#!/usr/bin/env bash
# Builds target/hoofask over the engine's library. Needs `tools/library.sh`.
set -euo pipefail
cd "$(dirname "$0")/.."

library=target/staticlib/libcapi.a
[ -f "$library" ] || { echo "tools/build.sh: $library is missing: run 'tools/library.sh'" >&2; exit 1; }
gcc -std=c11 -O2 -Wall -Wextra -Werror -Iinclude tools/hoofask.c "$library" -o target/hoofask
