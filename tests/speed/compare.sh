#!/usr/bin/env bash
# Times `bench` beside the same search written plainly in Rust, tests/speed/plain_search.rs, over 16 MiB of bytes in memory.
#   (cd crates/bench && rt run) && tests/speed/compare.sh [RUNS]
# It needs rustc, and is no part of the gate: it judges nothing. A pattern that is no run of literals has no plain search.
set -euo pipefail
runs=${1:-9}
top=$(cd "$(dirname "$0")/../.." && pwd)
bench=$top/crates/bench/out/bench
if [ ! -x "$bench" ]; then
    echo "compare: there is no crates/bench/out/bench; rt run in crates/bench makes it" >&2
    exit 1
fi
work=$(mktemp -d)
trap 'rm -rf "$work"' EXIT
rustc -O --edition 2021 "$top/tests/speed/plain_search.rs" -o "$work/plain_search"
cd "$work"
./plain_search make random random
./plain_search make letters letters

row() {
    printf '%-32s %-28s %s\n' "$1" "$2" "$3"
}

# NAME FILE TEXT [backward]
both() {
    local name=$1 file=$2 text=$3 engine plain
    shift 3
    engine=$("$bench" "$file" "$text" "$runs" "$@")
    plain=$(./plain_search "$file" "$text" "$runs" "$@")
    row "$name" "$engine" "$plain"
}

# NAME FILE TEXT
alone() {
    local engine
    engine=$("$bench" "$2" "$3" "$runs")
    row "$1" "$engine" -
}

eight=0123456789ABCDEF
sixteen=0123456789ABCDEFFEDCBA9876543210
row "16 MiB, the best of $runs runs" bench plain
both "eight literals, none there" random "$eight"
both "eight literals, backward" random "$eight" backward
both "eight literals, the last ones" random "$(./plain_search last 8 random)"
both "sixteen literals, none there" random "$sixteen"
alone "41{0-30}42{0-30}43{0-30}44" letters "41{0-30}42{0-30}43{0-30}44"
alone "44{0-30}41{0-30}42{0-30}43" letters "44{0-30}41{0-30}42{0-30}43"
alone "41{0-30}44{0-30}42{0-30}43" letters "41{0-30}44{0-30}42{0-30}43"
