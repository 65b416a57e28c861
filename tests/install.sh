#!/usr/bin/env bash
# Tries `make install` and `make uninstall`: into a folder of its own, with what is installed used from there, by a shell, a C program, a Python
# program and man; then by a DESTDIR, from which nothing may point back. The exit status is 1 if anything is missing, or left.
set -eu
root=$(cd "$(dirname "$0")/.." && pwd)
room=$(mktemp -d)
trap 'rm -rf "$room"' EXIT
cd "$root"

fail() {
    echo "install.sh: $*"
    exit 1
}

prefix=$room/prefix
make -s install PREFIX="$prefix" PYTHONDIR="$prefix/python"
version=$(cat VERSION)

said=$("$prefix/bin/exchange" --version)
[ "$said" = "exchange $version" ] || fail "the command says $said"
(cd "$room" && "$prefix/bin/exchange" settle "$root/examples/week.ticket" week.settlement) || fail "the command does not settle"

man -l "$prefix/share/man/man1/exchange.1" >/dev/null || fail "no man page of the command"
man -l "$prefix/share/man/man3/hours_exchange.3" >/dev/null || fail "no man page of the library"

# C, by pkg-config where it is there, with the shared object and with the archive.
if command -v pkg-config >/dev/null; then
    export PKG_CONFIG_PATH=$prefix/lib/pkgconfig
    [ "$(pkg-config --modversion hours_exchange)" = "$version" ] || fail "pkg-config has another version"
    flags=$(pkg-config --cflags --libs hours_exchange)
else
    flags="-I$prefix/include -L$prefix/lib -lhours_exchange"
fi
# shellcheck disable=SC2086
gcc -std=c11 -Wall -Wextra -Werror examples/mark.c $flags -Wl,-rpath,"$prefix/lib" -o "$room/shared" || fail "a C program does not link"
gcc -std=c11 -I"$prefix/include" examples/mark.c "$prefix/lib/libhours_exchange.a" -o "$room/static" || fail "a C program does not link with the archive"
readelf -d "$room/shared" | grep -q 'NEEDED.*libhours_exchange\.so\.1' || fail "the shared object has no name"
for program in shared static; do
    "$room/$program" examples/week.ticket "$room/week.settlement" | grep -q '^sound' || fail "a C program ($program) does not mark"
done

# Python, with nothing but the folder of the module.
env -u HOURS_EXCHANGE_LIBRARY PYTHONPATH="$prefix/python" python3 - "$version" <<'PYTHON' || fail "the Python module does not work"
import sys, hours_exchange
assert hours_exchange.__version__ == sys.argv[1]
ticket = open("examples/week.ticket", "rb").read()
assert hours_exchange.mark(ticket, hours_exchange.settle(ticket)).is_sound
PYTHON
rm -rf "$prefix/python/hours_exchange/__pycache__"

make -s uninstall PREFIX="$prefix" PYTHONDIR="$prefix/python"
left=$(find "$prefix" ! -type d)
[ -z "$left" ] || fail "uninstall leaves $left"

# A package: nothing is written outside DESTDIR, and no file names it.
make -s install PREFIX=/usr DESTDIR="$room/package" PYTHONDIR=/usr/lib/python3/dist-packages
[ -x "$room/package/usr/bin/exchange" ] || fail "no command below DESTDIR"
grep -q '^prefix=/usr$' "$room/package/usr/lib/pkgconfig/hours_exchange.pc" || fail "the pkg-config file has another prefix"
if grep -rqs "$room" "$room/package" || find "$room/package" -type l -printf '%l\n' | grep -q "^$room"; then
    fail "an installed file names DESTDIR"
fi
echo "install: ok"
