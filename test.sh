#!/usr/bin/env bash
# Proves every crate, then tests the engine. The last line counts both: 'N passed, M failed'.
set -uo pipefail
cd "$(dirname "$0")" || exit 1

passed=0
failed=0

# Prints why nothing more is run, and the count with at least one failure.
stop() {
    echo "test.sh: $1" >&2
    [ "$failed" -gt 0 ] || failed=1
    echo "$passed passed, $failed failed"
    exit 1
}

# Runs a command, shows what it prints, and adds its last line, 'N passed, M failed', to the count.
counted() {
    local status last
    "$@" 2>&1 | tee "$log"
    status=$?
    last=$(tail -n 1 "$log")
    if [[ $last =~ ^([0-9]+)\ passed,\ ([0-9]+)\ failed$ ]]; then
        passed=$((passed + BASH_REMATCH[1]))
        failed=$((failed + BASH_REMATCH[2]))
        return "$status"
    fi
    return 1
}

# Installs Debian's cargo, rustc, gcc, g++, python3 and libsqlite3-dev where one of them is missing.
install_packages() {
    local tool missing='' as_root=()
    for tool in cargo rustc gcc g++ python3; do
        command -v "$tool" >/dev/null || missing="$missing $tool"
    done
    [ -e /usr/include/sqlite3.h ] || missing="$missing libsqlite3-dev"
    [ -n "$missing" ] || return 0
    echo "test.sh: installing Debian's packages, missing are:$missing"
    [ "$(id -u)" -eq 0 ] || as_root=(sudo)
    "${as_root[@]}" apt-get update && "${as_root[@]}" env DEBIAN_FRONTEND=noninteractive \
        apt-get install -y --no-install-recommends cargo rustc gcc g++ libc6-dev python3 libsqlite3-dev
}

command -v rt >/dev/null || stop "rt is not on the PATH: the Rattle kit is needed"
install_packages || stop "cargo, rustc, gcc, g++, python3 and libsqlite3-dev are needed, and apt-get could not install them"
log=$(mktemp) || stop "no temporary file can be made"
beside=$(mktemp) || stop "no temporary file can be made"
trap 'rm -f "$log" "$beside"' EXIT

# Where nothing is built yet, the library for C can be built over what rt ci leaves.
after_ci=(--after-ci)
! compgen -G 'crates/*/out' >/dev/null || after_ci=()
counted rt ci || stop "rt ci failed: the tests were not run"
ok=$(grep '^rt: ok' "$log") || stop "rt ci has no line 'rt: ok': the tests were not run"
[[ ! $ok =~ ,\ [0-9]+\ bad ]] || stop "edits that must be refused are bad: the tests were not run"
tools/library.sh "${after_ci[@]}" || stop "the library for C was not built: the tests were not run"

export CARGO_TARGET_DIR=$PWD/target/tests CARGO_HOME=$PWD/target/tests/home
(cd tests && cargo build --release --offline --locked) || stop "the tests were not built"
# The suite of mistaken engines takes as long as all else that follows: it runs beside it.
target/tests/release/hoofbook-tests mistakes >"$beside" 2>&1 &
counted target/tests/release/hoofbook-tests -mistakes || stop "the tests failed"
counted examples/test_kit.sh || stop "the example failed as C or as C++"
counted python3 tools/test_tools.py || stop "the tests of the tools failed"
wait
counted cat "$beside" || stop "the tests of mistaken engines failed"

[ "$failed" -eq 0 ] || stop "something failed"
echo "$passed passed, $failed failed"
