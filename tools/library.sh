#!/usr/bin/env bash
# Builds the engine's library for C, target/staticlib/libcapi.a, from the crate capi_c. Only a proved crate is built.
# usage: tools/library.sh [--after-ci]
# With --after-ci it is built over the libraries that rt ci left, which proves capi_c alone again. They are those of the
# sources only where no crate had an out/ folder before that run.
set -euo pipefail
cd "$(dirname "$0")/.."

built=crates/capi_c/out/libcapi_c.a
library=target/staticlib/libcapi.a

# Proves and builds capi_c over the libraries in the out/ folders, whatever sources they are of.
build_over_libraries() {
    local kit name folder libraries=()
    kit=$(dirname "$(rt doc)")
    for name in $(sed -n 's/^capi_c staticlib://p' crates.txt); do
        libraries+=(--extern "$name=../$name/out/rlib/$name.rlib")
    done
    for folder in crates/*/out/rlib; do
        libraries+=(-L "dependency=../../$folder")
    done
    mkdir -p crates/capi_c/out
    (cd crates/capi_c && "$kit/bin/rattle" build --crate-name capi_c src/lib.rt \
        --extern "std=$kit/rlibs/std.rlib" -L "dependency=$kit/rlibs" "${libraries[@]}" \
        --antt-project "$kit/rattle/logic/antt-project.json" --logic-built "$kit/logic_built" \
        --links capi_c= --crate-type staticlib --toolchain "$kit/toolchain" --backend llvm -o out/libcapi_c.a)
}

if [ $# -gt 1 ] || [ "${1:---after-ci}" != --after-ci ]; then
    echo "usage: tools/library.sh [--after-ci]" >&2
    exit 2
fi
command -v rt >/dev/null || { echo "tools/library.sh: rt is not on the PATH: the Rattle kit is needed" >&2; exit 1; }

rm -f "$built" "$library"
if [ $# -eq 0 ] || ! build_over_libraries; then
    (cd crates/capi_c && rt lib)
fi
mkdir -p "$(dirname "$library")"
cp "$built" "$library"
