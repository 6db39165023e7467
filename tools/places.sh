#!/usr/bin/env bash
# Counts the places in src/ that docs/DESIGN-PASS.md speaks of, point by point. With -l it lists them.
set -euo pipefail
cd "$(dirname "$0")/.."
list=${1:-}

# How many lines were found, and with -l the lines.
show() {
    local point=$1 what=$2 found=$3
    printf '%-3s %4d  %s\n' "$point" "$(printf '%s' "$found" | grep -c . || true)" "$what"
    if [ "$list" = -l ] && [ -n "$found" ]; then
        printf '%s\n' "$found" | cut -c1-150 | sed 's/^/          /'
    fi
}

# Lines of the code that match a pattern.
count() {
    show "$1" "$2" "$(grep -rnE -e "$3" crates/*/src --include='*.rt' || true)"
}

count 1 "enums" '^ *(pub )?enum '
show 1 "enums that derive no comparison" "$(awk '
    /^#\[derive/ { derived = $0 }
    /^(pub )?enum / { if (derived !~ /PartialEq/) print FILENAME ":" FNR ":" $0; derived = "" }
' $(find crates/*/src -name '*.rt' | sort))"
count 1 "a check that answers None where it passes" '\) -> Option<Rejection>|^\) -> Option<Rejection>'
count 1 "a bool that says whether a change took place" '&mut self.*-> bool'
count 1 "an error passed on by hand" 'if let Some\(rejection\) =|if let Err\(|Err\(\w+\) => (return )?Err|Err\(\w+\) => (return )?\w+::\w+\('
count 1 "an option taken apart by hand" 'Some\(\w+\) => (true|false|Some)|None => (true|false|None)'
count 1 "numbers for kinds or modifiers" 'kind: u8|modifiers: u8'
count 2 "families of twins" 'fn (type|role|group|subject|view)_from\(|fn is_(assignable|virtual|static)\(|fn of_(view|two)\(|fn (type_operations|group_roles)<|fn write_(table|types|subjects|records)<|fn write_fields<'
count 3 "loops over a counted range" '\bfor \w+ in \(?[a-z0-9_ +]+\.\.'
count 3 "while loops" '\bwhile '
count 4 "conversions by a method or a function" 'fn (number|bits|from_bits|from_bytes|of_form|explanation|rule_words|digit)\('
count 4 "equality by a method" 'fn same\('
count 4 "functions that print" 'fn write_\w+<'
count 5 "clauses that say that an order is that of the links" '(requires|ensures).*Means \('
count 5 "clauses that say what the tables contain" '(requires|ensures).*contents_of'
count 5 "clauses that say what a table lists" '(requires|ensures).*listed'
count 5 "clauses that say that the fields are there" 'requires .*≤ length (fields|self\.old)\.rest'
count 5 "functions that take the records with an order" '(records: &Records, .*: &H|^    (types|roles|views): &H)'
count 6 "arrays with a length beside them" '^    (pub\(crate\) )?\w+: \[\w+; \w+\],'
count 6 "a buffer and how much of it is filled" 'fn book_bytes|let len = book_bytes'
count 7 "a match that picks the step for a kind" 'match (phase|made|\(self.phase, kind\))'
count 7 "function pointers and tables of functions" '\bfn\(|dyn '
