#!/bin/sh
# Counts the places that docs/DESIGN-PASS.md speaks of, in the sources of all crates. Run at the top of the repository.
# Lines are counted, not places: one place can have several lines, and not each line is a place.
lines() {
    grep -rnE -e "$2" crates/*/src | grep -v '/tests.rt\|/frames.rt\|/tables.rt' | wc -l | xargs printf '%4d  %s\n' | sed "s|\$|$1|"
}
lines 'point 1: enums' '^(pub )?enum '
lines 'point 1: bool fields' '^    (pub )?[a-z_]+: bool,$'
lines 'point 1: arms by a literal number' '^ +(0x)?[0-9][0-9A-F]* =>'
lines 'point 1: two numbers told apart by their place' '(sessions)\[|: \[u16; 2\]'
lines 'point 1: an error in an Option' '-> Option<(Fault|Refusal|Link)>'
lines 'point 1: a bool for success' 'if !?(self\.)?link\.take\('
lines 'point 1: a refusal made text to become an error' 'anyhow!\(.*meaning\(\)'
lines 'point 3: loops over a range' '^ +for .* in .*\.\.'
lines 'point 3: reads and writes at a computed index' '[a-z_]\[(i|at|from|at \+ [0-9]|from \+ [0-9]|[24] \* i( \+ 1)?)\]'
lines 'point 4: arms that answer a literal number' '=> (0x)?[0-9][0-9A-F]*,$'
lines 'point 4: functions that only convert' 'fn (number|name|meaning|octet|command|hex_digit|same|read_word|in_range|named)\('
lines 'point 4: octets of a number put one by one' 'let \[.*\] = .*to_le_bytes|256 \* '
lines 'point 6: fields that are arrays or borrowed slices' "^    (pub )?[a-z_]+: (&.a mut )?\["
echo
echo 'point 2: names of functions that stand more than once'
grep -rhoE '^ *(pub(\([a-z]+\))? )?fn [a-z_]+' crates/*/src | sed -E 's/.*fn //' | sort | uniq -c | awk '$1 > 1 { printf "%s %s, ", $2, $1 } END { print "" }'
echo 'point 5: clauses that stand in three functions or more'
grep -rhoE '(requires|ensures)( [a-z_]+)? \{ .* \}' crates/*/src | sed -E 's/(requires|ensures)( [a-z_]+)? //' | sort | uniq -c | awk '$1 >= 3'
echo 'point 8: lines of proofs, and files of answers'
cat $(find crates/*/proofs -name '*.antt') | wc -l
find crates/*/proofs -name Answers.antt | wc -l
