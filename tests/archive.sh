#!/usr/bin/env bash
# Builds the library for C, proved first, and puts it where C callers look for it: target/staticlib/libwarnbox.a.
set -euo pipefail
cd "$(dirname "$0")/.."
(cd crates/warnbox_c && rt lib)
mkdir -p target/staticlib
cp crates/warnbox_c/out/libwarnbox_c.a target/staticlib/libwarnbox.a
