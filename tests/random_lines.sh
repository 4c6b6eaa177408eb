#!/usr/bin/env bash
# Compares `probe` with an independent implementation of the rules, tests/oracle.rs, on random lines, good and damaged ones.
# About half the lines are searches, and half of these hit.
#   tests/random_lines.sh [COUNT [SEED]]
# `rt try` compiles the program with checks and runs it without its proof, once for each part of the lines, since it cuts off
# output at 1 MiB. (Its interpreter, which it runs too, gives no answer to so many lines.)
# A difference fails it, and prints the line.
set -euo pipefail
count=${1:-100000}
seed=${2:-$(date +%s)}
part=20000
top=$(cd "$(dirname "$0")/.." && pwd)
work=$(mktemp -d)
trap 'rm -rf "$work"' EXIT
rustc -O --edition 2021 "$top/tests/oracle.rs" -o "$work/oracle"
mkdir "$work/cases"
cp "$top/crates.txt" "$work/"
cp -r "$top/crates" "$work/"
rm -rf "$work"/crates/*/out
cd "$work"
./oracle lines "$seed" "$count" | split -l "$part" -d - cases/lines
parts=0
for lines in cases/lines*; do
    ./oracle answers <"$lines" >"$lines.stdout"
    parts=$((parts + 1))
done
(cd crates/probe && rt try --steps 1 --cases ../../cases >../../log 2>&1) || true
if [ "$(grep -c '^case=lines[0-9]* run=ended status=0 .*output=expected' log)" != "$parts" ]; then
    echo "random_lines: probe and the oracle differ, seed $seed:"
    read -r name at < <(sed -n 's/^the output differs from `\(lines[0-9]*\)\.stdout`: at byte \([0-9]*\),.*/\1 \2/p' log) || cat log
    if [ -n "${name:-}" ]; then
        row=$(($(head -c "$at" "cases/$name.stdout" | wc -l) + 1))
        sed -n "${row}p" "cases/$name"
        sed -n "${row}s/^/expected: /p" "cases/$name.stdout"
        grep '^the output differs' log | cut -c 1-300
    fi
    exit 1
fi
found=$(cat cases/*.stdout | grep -c '^hit$' || true)
missed=$(cat cases/*.stdout | grep -c '^miss$' || true)
echo "random_lines: $count lines answered alike, $found hits and $missed misses among them (seed $seed)"
