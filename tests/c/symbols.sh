#!/bin/sh
# Compares the functions that the header declares with those that the library defines, both ways.
# usage: tests/c/symbols.sh [path of an archive or a shared object; else libcapi.a in RATTLE_LIB_DIR]
set -eu
root=$(cd "$(dirname "$0")/../.." && pwd)
library=${1:-${RATTLE_LIB_DIR:?}/libcapi.a}
lists=$(mktemp -d)
trap 'rm -r "$lists"' EXIT

# Without comments, what stands before an opening bracket is a function.
"${CC:-cc}" -E -P "$root/include/sindhopul.h" >"$lists/header"
grep -o 'sindhopul_[a-z0-9_]* *(' "$lists/header" | tr -d ' (' | sort >"$lists/declared"

case $library in
*.so) nm -D --defined-only "$library" >"$lists/symbols" ;;
*) nm -g --defined-only "$library" >"$lists/symbols" ;;
esac
awk '$2 == "T" { print $3 }' "$lists/symbols" | sort >"$lists/defined"

if ! [ -s "$lists/declared" ]; then
    echo "symbols: the header declares no function" >&2
    exit 1
fi
if ! diff "$lists/declared" "$lists/defined" >"$lists/difference"; then
    echo "symbols: < only in the header, > only in $library" >&2
    grep '^[<>]' "$lists/difference" >&2
    exit 1
fi
echo "symbols: $(wc -l <"$lists/declared") functions, the same in the header and in $(basename "$library")"
