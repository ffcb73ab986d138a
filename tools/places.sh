#!/usr/bin/env bash
# Lists the places in the sources at which a form of the language is to be weighed, one section for each form; with -c their
# counts alone. docs/DESIGN-PASS.md says what became of each. `places.sh [-c] [DIR]`, DIR being another checkout.
set -u
count=
[ "${1:-}" = -c ] && { count=yes; shift; }
cd "${1:-$(dirname "$0")/..}" || exit 1

sources() { git ls-files 'crates/*/src/*.rt' | xargs grep -nE "$1"; }
proofs() { git ls-files 'crates/*/proofs/*.antt'; }

section() {
    if [ -n "$count" ]; then
        printf '%-28s %s\n' "$1" "$(wc -l)"
    else
        printf '== %s\n' "$1"
        cat
    fi
}

sources '^ *(pub(\(crate\))? )?enum ' | section '1 enums'
sources 'Report::at(_pair)?\(.*[0-9]+\)|at_pair\(.*, [0-9]+\)|^ +[34],$|=> [0-9]+,$' | section '1 numbers for kinds'
sources ': \[*bool[,;]' | section '1 flags'
sources '^[^/]*(for \w+ in [^{]*\.\.|\bwhile )|\+= 1;|\.enumerate\(\)' | section '3 counted loops'
sources 'fn (same|report|cause|number|numbered|size|index|law_kind|of_text|word|layer_word|print_\w+|write_(digits|number|bytes)|count_digits)\(' | section '4 conversions and printing'
git ls-files 'crates/*/src/*.rt' | xargs grep -hoE 'requires( \w+)? \{.*\}' | sed -E 's/requires( \w+)? //' | sort | uniq -c | awk '$1 >= 3' | section '5 facts in clauses'
sources 'meaning \(C\.states' | section '5 meanings put together'
sources '(: |-> |\(|, |<)\[[^]]+; [A-Z0-9_a-z]+\]' | section '6 fixed arrays'
sources 'match [&*]?(\w+\.)*(kind|count|inputs)\b|Judge::|judge\.row' | section '7 switches'
proofs | section '8 proof files'
proofs | grep Answers.antt | section '8 files of answers'
proofs | xargs cat | section '8 lines of proofs'
