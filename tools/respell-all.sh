#!/usr/bin/env bash
# What followed the kit's port.py when the repository came from an older Rattle (docs/PORT.md): the repository's own names in
# today's spelling, `#![tactic(auto)]` in each crate, .gitignore, layout. It was run once, at the top; it commits nothing.
set -eu
here=$(cd "$(dirname "$0")" && pwd)
python3 "$here/respell.py"
for f in crates/*/src/lib.rt crates/*/src/main.rt; do
  [ -f "$f" ] || continue
  grep -q 'tactic(auto)' "$f" || awk 'done == 0 && !/^\/\// { print "#![tactic(auto)]"; done = 1 } { print } END { if (!done) print "#![tactic(auto)]" }' "$f" > "$f.new"
  [ ! -f "$f.new" ] || mv "$f.new" "$f"
done
printf 'target/\nout/\n' > .gitignore
python3 "$here/respell-equals.py" | tail -3
python3 "$here/respell-rest.py"
for d in crates/*/; do (cd "$d" && rt fmt > /dev/null) || echo "rt fmt: $d"; done
