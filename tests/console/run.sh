#!/usr/bin/env bash
# Tests of the console program from outside: statuses, messages and files.
# usage: tests/console/run.sh SINDHOPUL [PART ..]
# Answers and messages are compared whole with those under tests/console/expected; with KEEP=1 they are stored there
# instead. Read the difference before it is kept.
set -euo pipefail
here=$(cd "$(dirname "$0")" && pwd)
# shellcheck disable=SC2034  # the parts use it
root=$(cd "$here/../.." && pwd)
# shellcheck disable=SC2034
program=$(realpath "$1")
shift
parts=(calls causes slips journals files series words)
if [ $# -gt 0 ]; then parts=("$@"); fi
work=$(mktemp -d)
trap 'rm -r "$work"' EXIT
# shellcheck source=/dev/null
. "$here/common.sh"

for part in "${parts[@]}"; do
    begin
    # shellcheck source=/dev/null
    . "$here/$part.sh"
    compare_messages
done
# shellcheck disable=SC2154  # counted in common.sh
echo "console: $checks checks"
