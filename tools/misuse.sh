#!/usr/bin/env bash
# Shows that the compiler refuses the misuses of a case, and accepts their corrected twins.
# Each caller is a crate of its own, made in a copy of the repository: rt takes over what it proved on this machine and has
# not changed, so run this after a check. It ends 'misuse: N as they must be' or fails.
set -eu
cd "$(dirname "${BASH_SOURCE[0]}")/.."

copy=$(mktemp -d)
trap 'rm -rf "$copy"' EXIT
tar -cf - --exclude='crates/*/out' crates crates.txt | tar -xf - -C "$copy"
mkdir -p "$copy/crates/caller/src"
echo 'caller: case checking control' >>"$copy/crates.txt"
count=0

# NAME, the lines between check and the end of the caller, and the compiler's error; none where it must be accepted.
try() {
    local name=$1 lines=$2 error=${3:-} got=accepted
    cat >"$copy/crates/caller/src/lib.rt" <<CALLER
#![tactic(auto)]

use case::reading::read_case;
use case::values::Case;
use checking::Trusted;
use checking::check;
use control::Fixed;

// What wants a trusted case.
fn states(trusted: &Trusted) -> usize {
    trusted.case().states
}

pub fn caller(text: &[u8], other: &[u8]) -> usize {
    let mut place = Case::blank();
    let Some(law) = Fixed::new(1, &[0]) else {
        return 0;
    };
    if read_case(text, &mut place).is_err() || read_case(other, &mut place).is_err() {
        return 0;
    }
    let Ok(trusted) = check(&place, &law) else {
        return 0;
    };
$lines
}
CALLER
    (cd "$copy/crates/caller" && rt check) >"$copy/log" 2>&1 || got=refused
    if [ -z "$error" ]; then
        [ "$got" = accepted ]
    else
        [ "$got" = refused ] && grep -qF "$error" "$copy/log"
    fi || {
        echo "misuse: $name: $got, not as it must be"
        tail -n 5 "$copy/log"
        exit 1
    }
    count=$((count + 1))
    echo "misuse: $name: $got, as it must be"
}

try 'a trusted case where one is wanted' '    states(&trusted)'
try 'a case only read where a trusted one is wanted' \
    '    states(&place)' 'error[mismatched-types]'
try 'reading into the place once the trusted case has ended' \
    '    let count = states(&trusted);
    drop(trusted);
    let _ = read_case(other, &mut place);
    count'
try 'reading into the place while a trusted case stands on it' \
    '    let _ = read_case(other, &mut place);
    states(&trusted)' 'error[borrow-e0502]'
try 'a trusted case made without check' \
    '    states(&Trusted { case: &place })' 'error[private-field]'
echo "misuse: $count as they must be"
