#!/usr/bin/env bash
# What three changes of a small store write, with keys as numbers: each change draws new keys from the place up to the root.
set -euo pipefail
cd "$(dirname "${BASH_SOURCE[0]}")/.."
rehearse=$(bash tests/program.sh rehearse)

hex() { od -An -v -tx1 | tr -d ' \n'; }

echo
echo "Changes of a store of four places: the root is node 1, the places are nodes 4 to 7"
lines=(
    "put 0 $(printf letter | hex)"
    "put 1 $(printf photo | hex)"
    "out 0"
)
titles=(
    "a letter is put in place 0"
    "a photo is put in place 1"
    "what is in place 0 is taken out"
)
mapfile -t answers < <(printf '%s\n' "tree 4" "${lines[@]}" | "$rehearse" | tail -n +2)
for i in "${!titles[@]}"; do
    echo
    echo "  ${titles[$i]}; written:"
    printf '%s\n' "${answers[$i]}" | sed 's/; /\n/g' | sed "s/^root \(.*\)/the root's new key is \1/; s/^/    /"
done
echo
echo "  Key 1, under which the letter was sealed, is sealed under keys 2 and 5 only, and those under 3 and 6."
echo "  Whoever has key 8, the root's key now, and all that was ever written, can open none of them."
