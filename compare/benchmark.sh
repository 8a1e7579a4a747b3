#!/usr/bin/env bash
# Measures the product beside the second implementation and a sorted table: compare/benchmark.sh
set -euo pipefail
here=$(cd "$(dirname "$0")" && pwd -P)
"$here/build.sh"
exec "$here/target/release/benchmark"
