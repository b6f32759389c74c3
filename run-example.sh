#!/usr/bin/env bash
# Proves and builds hoofrun where that is not done yet, and runs it on the paper's eight calls.
set -euo pipefail
cd "$(dirname "$0")/crates/hoofrun"
command -v rt >/dev/null || { echo "run-example.sh: rt is not on the PATH: the Rattle kit is needed" >&2; exit 1; }
exec rt run <stdin
