#!/usr/bin/env bash
# Builds the program of a crate and prints its path. Usage: program.sh NAME
set -euo pipefail
cd "$(dirname "${BASH_SOURCE[0]}")/../crates/$1"

# `rt run` proves, builds and runs the program; it is run on no input, on files of its own.
work=$(mktemp -d)
trap 'rm -rf "$work"' EXIT
files=()
[ "$1" = store ] && files=(-- "$work/medium" "$work/chip")
if ! rt run "${files[@]}" </dev/null >"$work/log" 2>&1; then
    cat "$work/log" >&2
    exit 1
fi
realpath "out/$1"
