#!/usr/bin/env bash
# Builds the example against the header and the library, as C and as C++, runs it, and compares what it prints. Needs `tools/library.sh`.
set -uo pipefail
cd "$(dirname "$0")/.." || exit 1

library=target/staticlib/libcapi.a
passed=0
failed=0

# Counts a command that must succeed.
must() {
    if "$@"; then passed=$((passed + 1)); else failed=$((failed + 1)); echo "test_kit.sh: failed: $*" >&2; fi
}

# Builds the example as the program $1 by the compiler that follows, and compares what it prints.
try_kit() {
    local program=$1
    shift
    must "$@" -O2 -Wall -Wextra -Werror -Iinclude examples/kit.c "$library" -o "$program"
    must diff examples/kit.expected <("$program")
}

[ -f "$library" ] || { echo "test_kit.sh: $library is missing: run 'tools/library.sh'" >&2; }
try_kit target/kit gcc -std=c11
try_kit target/kit_cpp g++ -std=c++17 # g++ takes a .c file for C++

echo "$passed passed, $failed failed"
[ "$failed" -eq 0 ]
