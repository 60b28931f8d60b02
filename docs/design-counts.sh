#!/bin/bash
# The places that docs/DESIGN-PASS.md counts, in the sources of a commit (the last one, where none is named): a line for each kind,
# and with -v the places themselves.
cd "$(dirname "$0")/.." || exit 1
show=no
if [ "$1" = -v ]; then show=yes; shift; fi
commit=${1:-HEAD}

# count NAME PATTERN [LEFT OUT]: lines of crates/*/src that match the one pattern and not the other
count() {
    local lines
    lines=$(git grep -nE -e "$2" "$commit" -- 'crates/*.rt' | sed 's/^[^:]*://')
    if [ -n "$3" ]; then lines=$(echo "$lines" | grep -vE -e "$3"); fi
    echo "$1: $(echo "$lines" | grep -c .)"
    if [ $show = yes ]; then echo "$lines" | sed 's/^/    /'; fi
}

# enums that are kinds of something, with no Option or Result in them
kinds='enum (Rule|Mode|Step|Mark|Reading|Refusal|Unanswered|Letter)\b'

count '1a own enums of the shape of Option or Result' '^ *(pub )?enum ' "$kinds"
count '1b a flag or a number with a value beside it' '^ *(pub )?struct (PlanRead|Stepped|Given|Taken|Scanned|Scan)\b'
count '1c functions that answer a number for a refusal or a kind' '\-> u8' '^crates/weftpillar_c/'
count '1d numbers of refusals as constants' '^(pub )?const [A-Z_0-9]+: u8'
count '1e N or C where there is no node or slot' '^    (plan\.nodes|frame)$|unwrap_or\(nodes\) as u32'
count '1f a letter as a number' 'letter: u8'
count '3 loops that count' '^ *(for [a-z_]+ in \(?[0-9a-z_]+\.\.|while )'
count '4a fields compared one by one' '\.0 (==|!=) ([a-z_.]+\.0|[a-z_]+\(.*\)\.0)'
count '4b functions that convert or print by hand' '\bfn (wide16|wide32|be16|be32|put8|put16|put32|put64|mode_byte|mode_in|flag_byte|mark_byte|mark_in|mode_by|rule_number|outcome_number|read_number|answer_number|reckoned_number|next_number|line_number|spell|step_by|step_in|tick|slot|mode_word|mark_word|write_number|write_word|is_about|is_about_to_send|is_sending|is_digit)\b'
count '5a a plan that passed 1 to 9, in a clause' '(requires|ensures).*(Sound plan|plan_number plan ≡ 0)'
count '5b a run in range, in a requires' 'requires.*in_range plan (run|desk\.run|place\.run) ≡ true'
count '5c what was found of a plan, in a requires' 'requires.*(distances ≡ distances_of|gap\.0 ≡ gap_of|from\.0 ≡ widest_from|seen ≡ seen_from)'
count '5d the number of nodes beside the plan or the file' 'requires.*nodes ≡ '
count '5e lengths of lent buffers, in a requires' 'requires.*(≤ length|length [a-z.]+ ≡)'
count '6 a buffer and a place in it' '(out: &mut \[u8\], (at|waiting)|bytes: &mut \[u8\], at): usize'
