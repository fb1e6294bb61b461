#!/usr/bin/env bash
# Compares the engine, as C calls it, with a version that was written a second time from docs/ alone:
# answer, refusal and buffer, byte for byte, over generated runs, good and damaged.
# usage: tests/independent/compare.sh [SEED [COUNT]]
# MARGIN_LIBS names the engine's static library; without it `rt lib` builds one, over what rt check has kept.
set -euo pipefail
cd "$(dirname "${BASH_SOURCE[0]}")"
root=$(cd ../.. && pwd)

if [ -z "${MARGIN_LIBS:-}" ]; then
    (cd "$root/crates/margin_c" && rt lib) >&2
    MARGIN_LIBS=$root/crates/margin_c/out/libmargin_c.a
fi
export MARGIN_LIBS CARGO_TARGET_DIR=$PWD/target
cargo build --release --offline --quiet
exec target/release/compare "${1:-1}" "${2:-20000}"
