#!/usr/bin/env bash
# What the compiler must turn down never reaches the prover, so no must-fail edit can show it.
# This writes small programs over the library into a temporary folder and expects the errors by name:
#   borrow-e0382                a reading is used after it was handed over, and one reading is identified twice
#   borrow-e0506                bytes are written while a reading of them stands
#   mismatched-associated-type  a sequence of marks is looked for in bytes
# The first two without their faults, in one program, must be proved.
set -euo pipefail
top=$(cd "$(dirname "$0")/.." && pwd)
work=$(mktemp -d)
trap 'rm -rf "$work"' EXIT
mkdir -p "$work/crates"
for crate in faults kinds patterns rows lexer engine records catalogue; do
    cp -r "$top/crates/$crate" "$work/crates/$crate"
    rm -rf "$work/crates/$crate/must-fail" "$work/crates/$crate/out"
done

# program NAME: a program whose body of `main` comes from standard input
program() {
    mkdir -p "$work/crates/$1/src"
    {
        cat <<'HEAD'
#![tactic(auto)]

use kinds::{Byte, Held, Reading};

fn handed_over<R: Reading + Drop>(reading: R) -> u32 {
    reading.len()
}

fn main() {
    let mut bytes = [Byte::from(0x41), Byte::from(0x42)];
    let reading = Held::new(&bytes);
HEAD
        sed 's/^/    /'
        echo "}"
    } >"$work/crates/$1/src/main.rt"
}

program handed_over_twice <<'BODY'
let _first = handed_over(reading);
let _second = handed_over(reading);
bytes[0] = Byte::from(0);
BODY
program written_under_reading <<'BODY'
bytes[0] = Byte::from(0);
let _first = handed_over(reading);
BODY
program lawful <<'BODY'
let _first = handed_over(reading);
let again = Held::new(&bytes);
let _second = handed_over(again);
bytes[0] = Byte::from(0);
BODY
mkdir -p "$work/crates/marks_in_bytes/src"
cat >"$work/crates/marks_in_bytes/src/main.rt" <<'PROGRAM'
#![tactic(auto)]

use engine::{PatternText, Reference, Sequence};
use kinds::{Bytes, Mark};

fn main() {
    if let Ok(text) = PatternText::try_from("S1".as_bytes()) {
        if let Ok(sequence) = Sequence::<Mark>::compile(1, Reference::Anywhere, text) {
            let _hit = sequence.hits(&Bytes::new(b"S1"));
        }
    }
}
PROGRAM
mkdir -p "$work/crates/identified_twice/src"
cat >"$work/crates/identified_twice/src/main.rt" <<'PROGRAM'
#![tactic(auto)]

use catalogue::{Catalogue, Hit};
use kinds::{Byte, Bytes};

fn identify_twice(catalogue: &Catalogue<Byte>, file: &[u8], hits: &mut [Hit]) {
    let reading = Bytes::new(file);
    let _first = catalogue.identify(reading, b"", hits);
    let _second = catalogue.identify(reading, b"", hits);
}

fn main() {}
PROGRAM
grep -E '^(faults|kinds|patterns|rows|lexer|engine|records|catalogue):' "$top/crates.txt" >"$work/crates.txt"
printf '%s\n' 'handed_over_twice: kinds' 'written_under_reading: kinds' 'lawful: kinds' \
    'marks_in_bytes: engine kinds' 'identified_twice: catalogue kinds' >>"$work/crates.txt"
cd "$work"

# check NAME: proves a program; what the check says stands in the log
check() {
    (cd "crates/$1" && rt check) >"$work/log" 2>&1
}

# compiled NAME: compiles and runs a program, and proves nothing
compiled() {
    (cd "crates/$1" && rt try) >"$work/log" 2>&1
}

passed=0
# refused HOW NAME ERROR: the compiler turns NAME down, with ERROR
refused() {
    local how=$1
    shift
    if "$how" "$1"; then
        echo "borrow_rules: $1 was accepted, and $2 was expected"
        exit 1
    fi
    if ! grep -q "error\[$2\]" "$work/log"; then
        echo "borrow_rules: $1 was not refused by $2:"
        cat "$work/log"
        exit 1
    fi
    passed=$((passed + 1))
}
refused check handed_over_twice borrow-e0382
refused check written_under_reading borrow-e0506
refused compiled marks_in_bytes mismatched-associated-type
refused compiled identified_twice borrow-e0382
if ! check lawful; then
    echo "borrow_rules: lawful was refused:"
    cat "$work/log"
    exit 1
fi
echo "borrow_rules: $((passed + 1)) cases as expected"
