#!/usr/bin/env bash
# Compares the proved programs with the reference program, with the values of RFC 8439, and with tables of right answers.
# REHEARSE and REHEARSE_STORE name the programs under test; by default they are built here.
set -euo pipefail
cd "$(dirname "${BASH_SOURCE[0]}")/.."

rehearse=$(realpath -m "${REHEARSE:-$(bash tests/program.sh rehearse)}")
rehearse_store=$(realpath -m "${REHEARSE_STORE:-$(bash tests/program.sh rehearse_store)}")
reference=reference/target/release/reference
seed=8439
count=12000
changes_count=4000
plays_count=4000

for program in "$rehearse" "$rehearse_store"; do
    if [ ! -x "$program" ]; then
        echo "compare: there is no program $program" >&2
        exit 1
    fi
done

work=$(mktemp -d)
trap 'rm -rf "$work"' EXIT

# A build's output is shown only where it fails.
quietly() {
    if ! "$@" >"$work/log" 2>&1; then
        cat "$work/log" >&2
        echo "compare: failed: $*" >&2
        exit 1
    fi
}

# The number of the line, of those in file $1 that have an answer, that answer $2 belongs to.
# Blank lines and comments have none.
line_of_answer() {
    LC_ALL=C awk -v want="$2" '
        { sub(/\r$/, "") }
        /^[ \t]*(#|$)/ { next }
        ++answers == want { print NR; exit }
    ' "$1"
}

# agree NAME LINES ANSWERS EXPECTED: the two files of answers have to be the same, byte for byte.
agree() {
    local name=$1 lines=$2 answers=$3 expected=$4 at line
    if cmp -s "$answers" "$expected"; then
        echo "$name: $(wc -l <"$expected") answers agree"
        return
    fi
    at=$(LC_ALL=C awk -v other="$expected" '
        { more = getline answer <other }
        more <= 0 || $0 "" != answer "" { print NR; found = 1; exit }
        END { if (!found) print NR + 1 }
    ' "$answers")
    line=$(line_of_answer "$lines" "$at")
    {
        echo "$name: DIFFERENT from answer $at on, that is line ${line:-(none)} of the lines"
        if [ -n "$line" ]; then
            echo "  line:     $(sed -n "${line}p" "$lines" | shorten)"
        fi
        echo "  answer:   $(sed -n "${at}p" "$answers" | shorten)"
        echo "  expected: $(sed -n "${at}p" "$expected" | shorten)"
    } >&2
    exit 1
}

# The first 200 bytes, and how many there are where that is not all.
shorten() {
    LC_ALL=C awk '{ if (length($0) > 200) print substr($0, 1, 200) "... (" length($0) " bytes)"; else print }'
}

# answers_of NAME LINES ANSWERS PROGRAM [WORDS...]: what the program answers; it has to end well.
answers_of() {
    local name=$1 lines=$2 answers=$3
    shift 3
    if ! "$@" <"$lines" >"$answers"; then
        echo "$name: the program ended with a failure" >&2
        exit 1
    fi
}

quietly cargo build --release --offline --manifest-path reference/Cargo.toml
quietly cargo test --release --offline --manifest-path reference/Cargo.toml
echo "reference's own tests: $(sed -n 's/^test result: ok\. \([0-9]* passed\).*/\1/p' "$work/log" | head -n 1)"

# check_table NAME TABLE PROGRAM [WORDS...]: the program answers a table's lines as it should.
check_table() {
    local name=$1 table=$2
    shift 2
    answers_of "$name, $table" "tests/$table.lines" "$work/answers" "$@"
    agree "$name, $table" "tests/$table.lines" "$work/answers" "tests/$table.expected"
}

# compare_generated NAME PROGRAM KIND COMMAND COUNT: the program and the reference answer the same to so many generated lines.
compare_generated() {
    local name=$1 program=$2 kind=$3 command=$4 lines=$5
    "$reference" "$command" "$seed" "$lines" >"$work/lines"
    answers_of "reference, $kind" "$work/lines" "$work/reference" "$reference" lines
    answers_of "$name, $kind" "$work/lines" "$work/answers" "$program"
    agree "$name and reference, $lines $kind lines" "$work/lines" "$work/answers" "$work/reference"
}

# The plays, with power cuts, looks and verdicts, are for the program over the store.
for table in rfc8439 malformed changes; do
    check_table rehearse "$table" "$rehearse"
done
compare_generated rehearse "$rehearse" generated generate "$count"
compare_generated rehearse "$rehearse" "generated change" generate-changes "$changes_count"
for table in rfc8439 malformed changes plays; do
    check_table rehearse_store "$table" "$rehearse_store"
    check_table reference "$table" "$reference" lines
done
compare_generated rehearse_store "$rehearse_store" generated generate "$count"
compare_generated rehearse_store "$rehearse_store" "generated change" generate-changes "$changes_count"
compare_generated rehearse_store "$rehearse_store" "generated play" generate-plays "$plays_count"
