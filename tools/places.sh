#!/bin/bash
# Lists, for a commit (HEAD where none is given), the places in crates/*/src that today's Rattle may write better, point by point, and
# counts them. docs/DESIGN-PASS.md says what became of each. Usage: tools/places.sh [COMMIT] [--count]
cd "$(dirname "$0")/.." || exit 2
commit=HEAD
count=no
for word in "$@"; do
    if [ "$word" = --count ]; then count=yes; else commit=$word; fi
done

# The lines of the sources that match, without their comments.
source_lines() {
    git grep -nE "$1" "$commit" -- 'crates/*/src/*.rt' | sed "s/^$commit://" | grep -vE ':[0-9]+:\s*//'
}

point() {
    local name=$1
    local lines
    lines=$(cat)
    local n=0
    if [ -n "$lines" ]; then n=$(printf '%s\n' "$lines" | wc -l); fi
    echo "$name: $n"
    if [ $count = no ] && [ -n "$lines" ]; then printf '%s\n' "$lines" | sed 's/^/    /'; fi
}

# 1. An error or a place at fault in an Option; a bool that tells of a value changed beside it; place 0 for a kind of refusal; a state
#    that says that the fields beside it count for nothing; a match that hands on what `?`, map_err, ok_or or unwrap_or hand on.
{
    source_lines '^\s*(pub(\(crate\))? )?fn .*-> Option<(\w*Fault|usize)>'
    source_lines '^\s*(pub(\(crate\))? )?fn .*&mut .*-> bool'
    source_lines '(BadRow|Weights|Order|Some)\(0\)'
    source_lines 'Standing::Unmade( =>|;| =|,$)'
    source_lines '(Ok|Some)\((\w+)\) => ((Ok|Some)\(\2\)|\2),|Err\(\w+\) => (return )?Err\(|None => (return )?(None|Err\()|Some\(\w+\) => (return )?Err\('
} | sort -u -t: -k1,1 -k2,2n | point '1 own Option or Result, flags, numbers for kinds'

# 2. Functions whose bodies are the same once names, numbers and the terms in them are left out.
for file in $(git ls-tree -r --name-only "$commit" crates | grep -E '^crates/[a-z_]+/src/.*\.rt$'); do
    git show "$commit:$file" | awk -v file="$file" '
        /^ *(pub(\(crate\))? )?fn /{ name = $0; sub(/^ */, "", name); sub(/^pub\(crate\) /, "", name); sub(/^pub /, "", name); sub(/[<(].*/, "", name); line = NR; indent = match($0, /[^ ]/); shape = ""; inside = 0 }
        name != "" && !inside && match($0, /[^ ]/) == indent && /^ *\{$/ { inside = 1; next }
        name != "" && !inside && /\{$/ && / fn / { inside = 1; next }
        inside && match($0, /[^ ]/) == indent && /^ *\}$/ { if (lines >= 4) print shape "\t" file ":" line ": " name; name = ""; inside = 0; lines = 0; next }
        inside { text = $0; gsub(/"[^"]*"/, "T", text); gsub(/[A-Za-z_][A-Za-z_0-9:.]*/, "a", text); gsub(/[0-9]+/, "0", text); gsub(/ /, "", text); shape = shape text; lines++ }'
done | sort | awk -F'\t' '{ if ($1 == last) { if (first != "") { print first; first = "" } print $2 } else { last = $1; first = $2 } }' | point '2 functions of one shape'

# 3. Loops over a range of indices, and counters.
{
    source_lines '^\s*(for .* in .*\.\.|while |loop )'
    source_lines '\w+ (\+= 1|= \w+\.saturating_add\(1\));'
} | sort -u -t: -k1,1 -k2,2n | point '3 loops by index and counters'

# 4. Equality, order, copying, conversion and printing by hand.
source_lines '^\s*(pub(\(crate\))? )?fn (is_same|same_\w+|\w+_word|\w+_name|word|words|write_\w+|numbered|written|ends|number)\b|Span \{ low: 0, high: 0 \}|^const ZERO' | point '4 equality, conversion and printing by hand'

# 5. A fact that stands in three or more contracts as what is asked.
git grep -hE '^\s*requires' "$commit" -- 'crates/*/src/*.rt' | sed -E 's/^\s*requires \w* ?\{ ?//; s/ ?\}$//; s/\.(now|old|entry)//g' | sort | uniq -c | awk '$1 >= 3' | sort -rn | point '5 facts asked in three or more contracts'

# 6. Tables of nine with a number of places in use beside them.
source_lines '^\s*(pub(\(crate\))? )?\w+: \[+[A-Za-z0-9_:]+; 9\]|&\[\[?\w+; 9\](; 9\])?, .*(n|count): usize' | point '6 tables with a length beside them'

# 7. Switches on which step to run.
source_lines 'match (layers|call|which|what|\*?self\.layers) \{' | point '7 switches on which step to run'

# 8. Answers by hand, and their lines.
echo "8 answers written by hand: $(git grep -hE '^pub [^ ]+ : goal\.' "$commit" -- 'crates/*/proofs/*' | wc -l)"
echo "8 lines of answers and invariants: $(for f in $(git ls-tree -r --name-only "$commit" crates | grep -E 'proofs/.*(Answers|Invariants)\.antt$'); do git show "$commit:$f"; done | wc -l)"
echo "8 lines of proofs in all: $(for f in $(git ls-tree -r --name-only "$commit" crates | grep -E '/proofs/.*\.antt$'); do git show "$commit:$f"; done | wc -l)"
