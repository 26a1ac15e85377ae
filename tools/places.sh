#!/usr/bin/env bash
# Counts the lines of src/ that show one of the older forms of docs/DESIGN-PASS.md, point by point, at a commit.
#   tools/places.sh [COMMIT]      the counts
#   tools/places.sh -l [COMMIT]   the lines too
set -euo pipefail
cd "$(dirname "${BASH_SOURCE[0]}")/.."
list=
if [ "${1:-}" = -l ]; then
    list=1
    shift
fi
commit=${1:-HEAD}

# A point, what the lines show, and the pattern of the lines.
count() {
    local lines
    lines=$(git grep -nE "$3" "$commit" -- 'crates/*/src/*.rt' | grep -vE ':[0-9]+: *(//|ghost)' || true)
    printf '%-2s %3d  %s\n' "$1" "$(grep -c . <<<"$lines" || true)" "$2"
    if [ -n "$list" ] && [ -n "$lines" ]; then
        sed "s/^$commit:crates./        /" <<<"$lines"
    fi
}

count 1 'a variant for nothing in an enum of its own' '^    (Unnamed|Fine|Other|None),$'
count 1 'a number in place of a refusal' 'fn number\(&self\) -> u8|fn sentence\(number|^        [0-9_]+ => "|type Outcome|pub number: u8'
count 1 'a number answered where there is nothing to say' 'fn [a-z_]+\(\) -> u8$'
count 1 'a flag or a value that counts only beside another' '^    fresh: bool|let mut marked|\(usize, (usize, )?bool\)'
count 2 'a type or trait that stands for one function on marks' '^(pub\(crate\) )?(struct (Override|Less|Lacking|Cover|Equal|Disjoint);|trait (Blend|PairTest))'
count 2 'one more at the end, or all copied, for one type' 'fn (store|store_fact|store_job)\(|fn push\(&mut self, number|fn of\((s|facts): '
count 2 'one step for two types, two ends or two callers' 'fn (state_text|world_text|judge_goal|judge_job|all_met|picked|none_from|first|add_all)\b|impl Named for|From<TextFault> for (Table|Slip)Fault|refused::tell\(rt|(take\(limit\))'
count 2 'a job of empty states, spelt out' 'let precondition = State::empty'
count 3 'a loop or recursion that counts by hand' 'for [a-z_]+ in [a-z0-9]+\.\.[A-Za-z_.&]+|for \(i, [a-z]+\) in|while let|\+= 1;|= [a-z]+ \+ 1;|, i - 1\)|place \+ 1,'
count 4 'equality by hand' 'fn (same|same_name|same_bytes|turned|is_named)\(|\(Header::(Opening|Goal), SlipTag'
count 4 'conversion by hand' ' as (u8|u32|u64|usize|char)\b|fn (signed\(holds|refusal\(|number\(&self\) -> u8|by_letter|at\(number)'
count 4 'printing by hand' 'fn (state_text|world_text|plain|marks|accepted)\(heap|fn push_literal|fn sentence\(number|text\.push_str\("(\.| )"|marks\.push|shown\.push|format!\(in heap; "accepted'
count 4 'what a byte is, by hand' "b >= b'|fn is_(letter|in_name)\("
count 5 'a line and its number, side by side' 'line: &\[u8\], at: u32|^        line: &\[u8\],$'
count 5 'a table and what is left, side by side' '^        table: &Table,$|table: &Table, bar: &mut Bar'
count 5 'a fact and whether it holds, side by side' 'fact: usize, holds: bool|\(usize, (usize, )?bool\)'
count 5 'one fact in the contracts of three or more' '(ensures|requires) .*(good_name \(|length slip\.now ≤|length text\.now ≤|bar\.new ≡ bar\.old|PlanFacts|\(list_of list\.old\)\.(facts|jobs))'
count 6 'an array with a length beside it, or a row beside another' '^    (pub(\(crate\))? )?(numbers|jobs|facts|bytes): (\[[A-Za-z0-9]+; [A-Z_]+\]|Filled<u8, MAX_JOBS>),$'
count 7 'a switch on which step to run, or a table of functions' '^impl (Blend|PairTest) for|^        match rule \{|match (command\.as_str\(\)|Command::from_args)'
printf '%-2s %3d  %s\n' 8 "$(git ls-tree -r --name-only "$commit" crates | grep -cE '/proofs/.*/(Answers|Invariants).antt$')" 'files of answers and of invariants'
printf '%-2s %3d  %s\n' 8 "$(git ls-tree -r --name-only "$commit" crates | grep -E '/proofs/.*\.antt$' | while read -r f; do git show "$commit:$f"; done | wc -l)" 'lines of proofs'
