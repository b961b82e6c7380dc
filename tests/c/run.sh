#!/bin/sh
# Builds and runs the C tests, the one of the interface as C++ too, then compares the symbols.
# usage: tests/c/run.sh [path of libcapi.a; else it is in RATTLE_LIB_DIR]
set -eu
here=$(cd "$(dirname "$0")" && pwd)
archive=${1:-${RATTLE_LIB_DIR:?}/libcapi.a}
built=$(mktemp -d)
trap 'rm -r "$built"' EXIT

warnings="-Wall -Wextra -Werror -pedantic"
# shellcheck disable=SC2086  # the warnings are several words
"${CC:-cc}" -std=c11 $warnings -O2 -I"$here/../../include" \
    "$here/interface.c" "$archive" -o "$built/interface_c"
"$built/interface_c"
# shellcheck disable=SC2086
"${CXX:-c++}" -std=c++11 $warnings -O2 -I"$here/../../include" \
    -x c++ "$here/interface.c" -x none "$archive" -o "$built/interface_cpp"
"$built/interface_cpp"
# shellcheck disable=SC2086
"${CC:-cc}" -std=c11 $warnings -O2 -I"$here/../../include" \
    "$here/conformance.c" "$archive" -o "$built/conformance"
"$built/conformance" "$here/../../conformance/cases.txt"
"$here/symbols.sh" "$archive"
