#!/usr/bin/env bash
# Builds the static library and the twin, and compares or measures them.
#
#   tests/twin.sh [COUNT [SEED]]     COUNT random inputs (200,000 if none is given)
#   tests/twin.sh --one SEED INDEX   one of them again
#   tests/twin.sh --names [SEED]     texts whose names are hard to tell apart, or many
#   tests/twin.sh --alone FILE..     recorded answers of some files, on the twin alone
#   tests/twin.sh --bench            the times of both sides
#
# The recorded answers are tried on both sides first, then the texts of names.
set -euo pipefail
cd "$(dirname "$0")/.."
command -v rustc >/dev/null || { echo 'twin: rustc is not on the PATH'; exit 1; }
mkdir -p target/twin
make -s library >target/library.log 2>&1 || { cat target/library.log; exit 1; }
rustc --edition 2021 -O -D warnings -o target/twin/twin tests/twin/main.rs -C link-arg=target/libpearrummy.a
case ${1-} in
--*) ;;
*)
    [ $# -gt 0 ] || set -- 200000
    target/twin/twin --vectors tests/vectors/*.txt
    target/twin/twin --names
    ;;
esac
exec target/twin/twin "$@"
