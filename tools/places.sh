#!/bin/sh
# Lists, for each point of docs/DESIGN-PASS.md, the lines of src/ among which its places are found.
# sh tools/places.sh [COMMIT]; without COMMIT, the files as they are.
commit=$1
find_lines() {
    git grep -nE "$1" $commit -- ':(glob)crates/*/src/**/*.rt' ':(exclude,glob)crates/*/src/**/tests.rt' |
        sed "s/^$commit://" | grep -vE ':[0-9]+: *//'
}
show() {
    lines=$(find_lines "$2")
    echo "== $1: $(printf '%s' "$lines" | grep -c .)"
    printf '%s\n' "$lines" | sed '/^$/d; s/^/   /'
}

show "1 enums" '^ *(pub(\(crate\))? )?enum '
show "1 refusals that are an Option" '\) -> Option<(Line)?Refusal>|^\) -> Option<(Line)?Refusal>'
show "1 errors handed on by hand" 'Err\((_|[a-z]+)\) =>|=> Err\(|return Err|let .* else \{|Some\(refusal\)'
show "1 answers that are a number for nothing" '_stands?\(\) -> u8'
echo "== 2 names that stand more than once"
git grep -hoE '\b(struct|enum|trait|fn) [A-Za-z_]+' $commit -- ':(glob)crates/*/src/**/*.rt' ':(exclude,glob)crates/*/src/**/tests.rt' |
    sort | uniq -c | awk '$1 > 1 { print "   " $1, $2, $3; n += $1 } END { print "   in all " n }'
show "3 loops" '\b(while|loop|for [&a-z_(), ]+ in)\b'
show "4 conversions, copies and comparisons by hand" 'fn (new\(.*\) -> Result|read\(|number\(|blank\(|words\(|order\(|same_[a-z]+\(|byte_order\(|is_letter\(|is_digit\(|first_point\(|last_point\(|comes_after\(|better\(|has\(|of\()|\.bytes ==|fn (read|show)_(side|mode|isin|misread|answer|margin|call)\('
show "5 the setting written out" 'setting_(of|with|for) \(?C\.Curve'
show "5 the order written out" 'Ascends \(?(by|λ|price_rank|percentage_rank|line_rank)'
show "5 parameters that go together" "^ *(setup: &Setup<|lines: &\[Line\],|isin: Isin,|scope: Scope,|curve: &'?s? ?C,|rule: &'?s? ?N,)|bought: Titles, sold: Titles|today: Date,? *(next|date|settlement): Date"
show "6 places with a count beside them" 'used: usize|count: usize'
show "7 switches on what to run" 'match (self|scope|mode|kind|scenario) '
