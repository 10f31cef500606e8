#!/bin/sh
# Builds the library, runs the three examples and compares what each prints with expected.txt. Ends with "3 examples, all alike".
set -e
cd "$(dirname "$0")/.."
library=target/staticlib/libtoe_c.a
tools/library.sh

cc -O2 -I include examples/cold_store.c $library -o target/cold_store
cc -shared -o target/staticlib/libtoe.so -Wl,--whole-archive $library -Wl,--no-whole-archive

target/cold_store | cmp - examples/expected.txt
cargo run -q --manifest-path examples/rust/Cargo.toml | cmp - examples/expected.txt
python3 examples/cold_store.py | cmp - examples/expected.txt
echo "3 examples, all alike"
