#!/usr/bin/env bash
# Compares `classify` with an independent implementation of the rules, tests/streams.rs: first on the streams of tests/streams/,
# whose lines were worked out by hand, then on random streams of records, good and damaged ones.
#   tests/random_streams.sh [COUNT [SEED]]
# CLASSIFY names the built programs, with spaces between them; each of them runs once for each stream. Without it the program is
# proved and built in crates/classify. (`rt try` needs no proof, but a tenth of a second for each run.)
# A difference fails it. It prints the stream without the records that the difference does not need, and both answers.
set -euo pipefail
count=${1:-20000}
seed=${2:-$(date +%s)}
top=$(cd "$(dirname "$0")/.." && pwd)
work=$(mktemp -d)
trap 'rm -rf "$work"' EXIT
rustc -O --edition 2021 "$top/tests/streams.rs" -o "$work/streams"
read -r -a programs <<<"${CLASSIFY:-}"
if [ ${#programs[@]} = 0 ]; then
    programs=("$top/crates/classify/out/classify")
    if ! (cd "$top/crates/classify" && rt run </dev/null) >"$work/log" 2>&1; then
        cat "$work/log"
        exit 1
    fi
fi
# where the streams lie that the programs read
export TMPDIR=$work
checked=$("$work/streams" checked "$top/tests/streams" "${programs[@]}")
if ! counts=$("$work/streams" compare "$seed" "$count" "${programs[@]}"); then
    echo "random_streams: seed $seed"
    exit 1
fi
echo "random_streams: answered alike (seed $seed): $checked, $counts"
