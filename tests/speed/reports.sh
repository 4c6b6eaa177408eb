#!/usr/bin/env bash
# Times reports: ten axles against a catalogue of axle marks at its bounds, and 4 KiB of a file against 24 signatures that stand at
# the front. Wants `rt run` in crates/bench before, and python3.
#   tests/speed/reports.sh [RUNS]
set -euo pipefail
top=$(cd "$(dirname "$0")/../.." && pwd)
work=$(mktemp -d)
trap 'rm -rf "$work"' EXIT
python3 "$top/tests/speed/reports.py" "$work"
echo "ten axles: $("$top/crates/bench/out/bench" --identify "$work/marks.records" "$work/axles" "${1:-20}")"
echo "24 at the front of 4 KiB: $("$top/crates/bench/out/bench" --identify "$work/starts.records" "$work/file" "${1:-20}")"
