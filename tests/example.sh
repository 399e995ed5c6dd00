#!/usr/bin/env bash
# Builds the examples in C with the proved library and runs them: each must exit with 0 and print what is recorded. --write records what they print.
set -euo pipefail
cd "$(dirname "$0")/.."

mkdir -p target
make -s library >target/library.log 2>&1 || { cat target/library.log; exit 1; }
for example in int_ne reasons; do
    gcc -std=c11 -O2 -Wall -Wextra -Werror -Iinclude -o "target/$example" "examples/$example.c" target/libpearrummy.a
    "target/$example" >"target/$example.out" || { cat "target/$example.out"; echo "example: $example has an answer that is not the expected one"; exit 1; }
    [ "${1-}" != --write ] || cp "target/$example.out" "examples/$example.out"
    diff "examples/$example.out" "target/$example.out" || { echo "example: $example does not print examples/$example.out"; exit 1; }
    cat "target/$example.out"
done
