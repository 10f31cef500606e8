#!/bin/sh
# Proves crate toe_c and all below it, and lays the static library at target/staticlib/libtoe_c.a.
set -e
cd "$(dirname "$0")/.."
(cd crates/toe_c && rt lib)
mkdir -p target/staticlib
cp crates/toe_c/out/libtoe_c.a target/staticlib/
