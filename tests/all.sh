#!/usr/bin/env bash
# Proves everything, then compares the programs. rt's own last line, 'N passed, 0 failed', is printed last, and only if all of it passed.
set -euo pipefail
cd "$(dirname "${BASH_SOURCE[0]}")/.."

log=$(mktemp)
trap 'rm -f "$log"' EXIT

# All but the last line goes out as it comes.
if ! rt ci 2>&1 | tee "$log" | sed '$d'; then
    tail -n 1 "$log"
    exit 1
fi
last=$(tail -n 1 "$log")
# An edit that can't be applied, compiled or read is no refusal.
if grep -qE '^rt: ok.*, [1-9][0-9]* bad' "$log"; then
    echo "all: a must-fail edit is bad" >&2
    exit 1
fi

bash tests/compare.sh

echo "$last"
case $last in
*" passed, 0 failed") ;;
*) exit 1 ;;
esac
