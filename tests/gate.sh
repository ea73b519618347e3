#!/usr/bin/env bash
# Runs `rt ci`, then every comparison, and repeats `rt ci`'s own last line as the very last one.
# A comparison that fails ends the run with `FAILED name` and exit 1, and so does an edit of must-fail/ that could not be tried.
set -u -o pipefail
cd "$(dirname "$0")/.."

for tool in rt python3 gcc cargo tee tail timeout diff; do
    command -v "$tool" > /dev/null || { echo "FAILED missing tool: $tool"; exit 1; }
done

# Where no library stands in an out/ folder before, those that do behind `rt ci` are the ones that it proved, and the libraries for C are built over them.
# (Where some do, it puts them back as they were, and tools/staticlib.sh has them built anew.)
PROVED_BY_CI=no
[ -n "$(find crates -path '*/out/rlib' -print -quit)" ] || PROVED_BY_CI=yes

said=$(mktemp)
trap 'rm -f "$said"' EXIT
rt ci 2>&1 | tee "$said"
status=${PIPESTATUS[0]}
[ "$status" -eq 0 ] || exit "$status"

compare() { # NAME COMMAND..
    local name=$1
    shift
    "$@" || { echo "FAILED $name"; exit 1; }
    echo "same: $name"
}

listed_as() { # EXAMPLE
    timeout 10 crates/lister/out/lister < "$1.bin" | diff "$1.txt" -
}

edits_are_sound() {
    grep -q '^rt: ok; ' "$said" && ! grep '^rt: ok; .*, [0-9]* bad' "$said" && python3 tests/edits.py "$said"
}

export PROVED_BY_CI
mkdir -p target

for name in test_judging test_reading test_text test_writing test_shelf test_lent; do
    compare "$name" python3 "tests/$name.py" --check
done
compare scope python3 tests/scope.py
compare rules python3 tests/rules.py
compare arrays python3 tests/arrays.py
compare core sh -c 'python3 tools/core.py > target/core.txt'
compare promises python3 tests/promises.py
compare edits edits_are_sound
compare examples python3 examples/make.py --check
compare lister_two_eits listed_as examples/two_eits
compare lister_all_kinds listed_as examples/all_kinds
compare lister_half_heard listed_as examples/half_heard
compare lister_vectors python3 tests/lister_vectors.py
compare annex_c_data python3 tools/check_annex_c.py
compare annex_c_crate python3 tools/annex_c.py --check
compare header python3 tests/header.py
compare day_sheet_from_c sh examples/c/run.sh
compare calls_from_c sh tests/calls/run.sh
compare readme python3 tests/readme.py
compare checksum_tables_there python3 tests/tables_there.py
compare lent_from_c sh tests/lent/run.sh
compare stack_of_each_call sh bench/stack.sh
compare stack_on_any_input python3 bench/frames.py
compare rust_bindings sh bindings/rust/test.sh
compare second_opinion sh tests/compare/run.sh

tail -n 1 "$said"
