#!/usr/bin/env bash
# Builds the programs, each proved first, as crates/NAME/out/NAME: `rt run` builds one and runs it, here on no input.
set -euo pipefail
cd "$(dirname "$0")/.."
for main in crates/*/src/main.rt; do
    program=$(basename "$(dirname "$(dirname "$main")")")
    mkdir -p "crates/$program/out"
    rm -f "crates/$program/out/$program"
    (cd "crates/$program" && rt run </dev/null >out/said 2>&1) || true
    [ -x "crates/$program/out/$program" ] || { cat "crates/$program/out/said"; exit 1; }
done
