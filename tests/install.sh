#!/bin/sh
# Installs library and program into a folder of their own. Builds and runs the examples as the library's users would: by
# pkg-config against the shared object, and against the archive. Starts a register with what the program's user finds.
set -eu
root=$(cd "$(dirname "$0")/.." && pwd)
cd "$root"
folder=$(mktemp -d)
trap 'rm -r "$folder"' EXIT
prefix=$folder/prefix

make --no-print-directory --silent install PREFIX="$prefix"
export PKG_CONFIG_PATH="$prefix/lib/pkgconfig" LD_LIBRARY_PATH="$prefix/lib"
flags=$(pkg-config --cflags --libs sindhopul)
warnings="-Wall -Wextra -Werror -pedantic -O2"

# shellcheck disable=SC2086  # flags and warnings are several words
"${CC:-cc}" -std=c11 $warnings examples/c/ladder.c $flags -o "$folder/ladder_c"
# shellcheck disable=SC2086
"${CXX:-c++}" -std=c++11 $warnings examples/cpp/ladder.cpp $flags -o "$folder/ladder_cpp"
# shellcheck disable=SC2086
"${CC:-cc}" -std=c11 $warnings -I"$prefix/include" examples/c/ladder.c "$prefix/lib/libsindhopul.a" \
    -o "$folder/ladder_static"
# shellcheck disable=SC2086
"${CC:-cc}" -std=c11 $warnings examples/c/loader.c $flags -o "$folder/loader_c"
# shellcheck disable=SC2086
"${CC:-cc}" -std=c11 $warnings -I"$prefix/include" examples/c/loader.c "$prefix/lib/libsindhopul.a" \
    -o "$folder/loader_static"

for example in ladder_c ladder_cpp ladder_static; do
    "$folder/$example" >"$folder/weekdays"
    diff examples/ladder.txt "$folder/weekdays"
    "$folder/$example" crates/sindhopul/data/warsaw.calendar >"$folder/calendar"
    diff examples/ladder.txt "$folder/calendar"
    # Its own output is no calendar.
    if "$folder/$example" examples/ladder.txt >"$folder/nothing" 2>"$folder/refusal"; then
        echo "install: $example took a file that is no calendar" >&2
        exit 1
    fi
    grep -qx 'start refused, cause 11' "$folder/refusal"
done

# loads STATUS LINE EXAMPLE FILE NAME: the loader ends with this status and writes this line.
loads() {
    status=0
    "$folder/$3" "$4" "$5" >"$folder/answer" 2>&1 || status=$?
    if [ "$status" != "$1" ] || [ "$(cat "$folder/answer")" != "$2" ]; then
        echo "install: $3 $4 $5 ends with $status:" >&2
        cat "$folder/answer" >&2
        exit 1
    fi
}
# Day 9817 and two series, the same without the last byte, and a byte more than any file of a register has.
printf '\001\002\000\131\046\002\014\000OW20L262850\004\002\014\000OW20X262850\004' >"$folder/series"
head -c 34 "$folder/series" >"$folder/cut"
head -c 41736 /dev/zero >"$folder/long"
for example in loader_c loader_static; do
    loads 0 'OW20X262850: new today, day 9817, origin 4, an announcement' "$example" "$folder/series" OW20X262850
    loads 1 'OW20L262400: not new today, day 9817' "$example" "$folder/series" OW20L262400
    loads 2 "$folder/cut refused, cause 31, place 34" "$example" "$folder/cut" OW20L262850
    loads 2 "$folder/long is longer than any file of a register" "$example" "$folder/long" OW20L262850
done

# The shared object has what the header declares, and is what the linked examples look for.
tests/c/symbols.sh "$prefix/lib/libsindhopul.so"
readelf -d "$folder/ladder_c" >"$folder/needed"
grep -q 'NEEDED.*\[libsindhopul\.so\.1\]' "$folder/needed"

# The program starts with the calendar that came with it, which is that of the list beside it.
program=$prefix/bin/sindhopul
days=$prefix/share/sindhopul
cmp calendars/warsaw.txt "$days/warsaw.txt"
"$program" calendar "$days/warsaw.txt" "$folder/warsaw.calendar" >"$folder/nothing"
cmp "$folder/warsaw.calendar" "$days/warsaw.calendar"
"$program" start "$days/warsaw.calendar" "$folder/register" 2026-11-16 2413.37 --journal "$folder/journal" >"$folder/nothing"
"$program" audit "$days/warsaw.calendar" "$folder/journal" "$folder/register" >"$folder/nothing"
# Its file of the day's new series is what the loader reads.
"$program" file "$days/warsaw.calendar" "$folder/register" "$folder/series" >"$folder/nothing"
loads 0 'OW20L262400: new today, day 9816, origin 5, the start' loader_c "$folder/series" OW20L262400

# DESTDIR goes before the prefix and is not told to anyone.
make --no-print-directory --silent install DESTDIR="$folder/stage" PREFIX=/opt/wig
grep -qx 'prefix=/opt/wig' "$folder/stage/opt/wig/lib/pkgconfig/sindhopul.pc"
cmp include/sindhopul.h "$folder/stage/opt/wig/include/sindhopul.h"
diff -r "$days" "$folder/stage/opt/wig/share/sindhopul"

# One version in all places.
version=$(pkg-config --modversion sindhopul)
grep -qx "version = \"$version\"" bindings/rust/Cargo.toml
grep -qx "version = \"$version\"" bindings/python/pyproject.toml
[ "$("$program" --version)" = "sindhopul $version" ]
echo "install: examples in C and C++ run, the program starts a register and writes its file, version $version"
