#!/usr/bin/env bash
# Installs into a temporary folder, builds an example from there with pkg-config, in C and a call in C++, runs the installed command, with a `minizinc`
# that looks for what it is given, and takes all away again; so in a folder with a blank in its name, where nothing else may be touched.
set -euo pipefail
cd "$(dirname "$0")/.."

place=$(mktemp -d)
trap 'rm -rf "$place"' EXIT
fail() { echo "install: $*"; exit 1; }
version=$(sed -n 's/^.define PEARRUMMY_VERSION "\(.*\)"/\1/p' include/pearrummy.h)
make -s install PREFIX="$place/usr" >target/install.log 2>&1 || { cat target/install.log; exit 1; }

export PKG_CONFIG_PATH="$place/usr/lib/pkgconfig"
if command -v pkg-config >/dev/null; then
    flags=$(pkg-config --cflags --libs pearrummy)
    [ "$(pkg-config --modversion pearrummy)" = "$version" ] || fail 'pkg-config says another version'
else
    echo 'install: pkg-config is not here, its file is only read'
    prefix=$(sed -n 's/^prefix=//p' "$PKG_CONFIG_PATH/pearrummy.pc")
    flags="-I$prefix/include -L$prefix/lib -lpearrummy"
fi
# shellcheck disable=SC2086
(cd "$place" && gcc -std=c11 -O2 -Wall -Wextra -Werror -o int_ne "$OLDPWD/examples/int_ne.c" $flags && ./int_ne >int_ne.out)
diff examples/int_ne.out "$place/int_ne.out" || fail 'the example from the installed place prints something else'

cat >"$place/plus.cpp" <<'EOF'
#include <pearrummy.h>
#include <cstdio>
int main() {
    const uint32_t end = 0x70000000;
    std::printf("%u %s\n", pearrummy_check(&end, 1).fault, pearrummy_fault_text(PEARRUMMY_UNKNOWN_CODE));
}
EOF
for standard in c++98 c++20; do
    # shellcheck disable=SC2086
    (cd "$place" && g++ -std=$standard -O2 -Wall -Wextra -Wpedantic -Werror -o plus plus.cpp $flags)
    [ "$("$place/plus")" = '0 the code is unknown' ] || fail "C++ says something else by $standard"
done

[[ "$("$place/usr/bin/pearrummy" --version)" = "pearrummy $version, "* ]] || fail 'the command has another version'
[ "$("$place/usr/bin/pearrummy" fill tests/command/ne.fzn a=3 b=1)" = '3 1 1' ] || fail 'the command fills something else'
grep -q "^Version: $version$" "$PKG_CONFIG_PATH/pearrummy.pc" || fail 'the pkg-config file has another version'
[ -s "$place/usr/share/man/man1/pearrummy.1" ] || fail 'the man page is missing'

# rows.msc, the script and the library that it names are where the installed command has MiniZinc look.
mkdir "$place/bin"
cat >"$place/bin/minizinc" <<'EOF'
#!/usr/bin/env bash
cd "$(dirname "$2")" && [ "$1" = --solver ] && grep -q '"mznlib": "mznlib", "executable": "flatten.py"' rows.msc && [ -s mznlib/redefinitions.mzn ] || exit 1
printf 'var 0..3: a;\nvar 0..2: b;\nconstraint int_ne(a,b);\nsolve satisfy;\n' | ./flatten.py
EOF
chmod +x "$place/bin/minizinc"
said=$(PATH="$place/bin:$PATH" "$place/usr/bin/pearrummy" judge tests/command/queens.mzn a=2 b=2) || true
[ "$said" = 'constraint 0 (int_ne, line 3 of its FlatZinc) is false' ] || fail "of a MiniZinc model the command says: $said"

make -s uninstall PREFIX="$place/usr"
left=$(find "$place/usr" -type f)
[ -z "$left" ] || fail "uninstall leaves $left"

# "a blank" must not become "a" and "blank".
mkdir -p "$place/a" "$place/blank"
touch "$place/a/kept" "$place/blank/kept"
make -s install DESTDIR="$place/a blank" PREFIX=/usr >target/install.log 2>&1 || { cat target/install.log; exit 1; }
[ -x "$place/a blank/usr/bin/pearrummy" ] || fail 'DESTDIR is not kept'
grep -q '^prefix=/usr$' "$place/a blank/usr/lib/pkgconfig/pearrummy.pc" || fail 'the pkg-config file has DESTDIR in its prefix'
make -s uninstall DESTDIR="$place/a blank" PREFIX=/usr
left=$(find "$place/a blank" -type f)
[ -z "$left" ] || fail "uninstall leaves $left"
if [ ! -e "$place/a/kept" ] || [ ! -e "$place/blank/kept" ]; then fail 'uninstall takes away what it did not install'; fi
echo 'install: header, library, command, man page, pkg-config file and MiniZinc library installed, used from C and C++, and taken away'
