#!/usr/bin/env bash
# Compares the product with the second implementation: compare/run.sh [ROUNDS [SEED]]
set -euo pipefail
here=$(cd "$(dirname "$0")" && pwd -P)
"$here/build.sh"
exec "$here/target/release/compare" "$here/../crates/dial_exchange/out/dial_exchange" "$@"
