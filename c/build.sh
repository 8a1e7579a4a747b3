#!/usr/bin/env bash
# Proves the C interface, builds its library and the example beside this script, and runs it.
# The last line is 'c/build.sh: ok', and the status 0, if all went well.
set -euo pipefail
cd "$(dirname "$0")/.."

kit=$(dirname "$(rt doc)")
(cd crates/c_interface && rt lib | tail -n 1)

mkdir -p target/c
"${CC:-cc}" -std=c11 -O2 -Wall -Wextra -Wpedantic -Werror -I c c/example.c \
    crates/c_interface/out/libc_interface.a "$kit/c/liblibc_c.a" -o target/c/example
target/c/example

echo "c/build.sh: ok"
