#!/bin/sh
# Runs the tests of the Python binding against build/lib.
set -eu
root=$(cd "$(dirname "$0")/.." && pwd)
export PYTHONPATH="$root/bindings/python" SINDHOPUL_LIBRARY="$root/build/lib/libsindhopul.so" PYTHONDONTWRITEBYTECODE=1
python3 -W error -m unittest discover --start-directory "$root/bindings/python/tests"
