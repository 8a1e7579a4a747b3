#!/usr/bin/env bash
# Builds what the comparison and the benchmark need: the product's program and static library, which
# proves them, and the Rust package beside them.
set -euo pipefail
cd "$(dirname "$0")/.."
# The program stays where it was built, as crates/dial_exchange/out/dial_exchange; here it is run on no orders.
(cd crates/dial_exchange && rt run </dev/null)
# `rt lib` links anew each time, so it is asked only when something has changed.
library=crates/c_interface/out/libc_interface.a
if [ ! -f "$library" ] || [ -n "$(find crates crates.txt -name out -prune -o -newer "$library" -print -quit)" ]; then
    (cd crates/c_interface && rt lib)
fi
# The kit's own C code is linked too; it lies beside the page that `rt doc` names.
RATTLE_HOME=$(dirname "$(rt doc)")
export RATTLE_HOME
cargo build --release --quiet --manifest-path compare/Cargo.toml
