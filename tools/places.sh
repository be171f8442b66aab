#!/bin/bash
# Lists the places in src/ that the design pass looks at, by point; docs/DESIGN-PASS.md says what became of each.
# Run at the top: `bash tools/places.sh` prints counts, `bash tools/places.sh list` the places too.
src() { find crates -path '*/src/*' -name '*.rt' ! -path '*/out/*' | sort; }
show() { # name, then lines on standard input
    local all; all=$(cat)
    printf '%-52s %s\n' "$1" "$(printf '%s\n' "$all" | grep -c .)"
    if [ "$LISTED" = list ] && [ "${1:0:2}" != 8c ]; then printf '%s\n' "$all" | sed 's/^/    /'; fi
}
LISTED=$1
# 1. own enums, Options and Results taken apart by hand, flags beside values, numbers for kinds or refusals
src | xargs grep -nE '^ *(pub )?enum ' | show '1a enums'
src | xargs grep -nE -A1 'let (Some|Ok|Err)\(.*else \{$' | grep -E 'return (None|Err\(|false|Some\(|sum|most|all|best|;|0|i\b)' | show '1b let-else that returns'
src | xargs grep -nE '(None => None|Err\(\w+\) => (return )?Err\(|Ok\(\(\)\) => Ok\(\(\)\)|Some\(\w+\) => Some\(|Some\(\w+\) => \w+,$|None => \w+,$)' | show '1c arms that hand on'
src | xargs grep -nE 'Option<Stop>' | show '1d stops as options'
src | xargs grep -nE '^ +(pub )?\w+: bool,' | show '1e flags in structs and parameters'
src | xargs grep -nE '(-> u8|tiers: usize|>= (16|64)\b|marks: &(mut )?\[u8\])' | show '1f numbers for kinds'
# 2. functions of one name in more than one place, where neither implements a trait
src | xargs grep -noE '^(pub |pub\(crate\) )?fn \w+' | sed -E 's/^([^:]*):([0-9]+):(pub |pub\(crate\) )?fn (\w+)/\4 \1:\2/' | awk '{n[$1]++; at[$1]=at[$1]" "$2} END {for (f in n) if (n[f]>1) print f at[f]}' | sort | show '2 free functions of one name'
# 3. loops that count by hand
src | xargs grep -nE '^ *(.\w+: )?(for \w+ in [^{]*\.\.|while |loop \{)' | show '3 counted loops'
# 4. conversion, comparison and printing by hand
src | xargs grep -nE 'impl.* (From|TryFrom|PartialEq|PartialOrd|Ord|Eq|Display|Clone|Copy)\b.* for |fn (of|same|at_most|shown|settled|done|tagged|is_least|is_none|is_paused|is_done|is_refused|print_\w+|plain|two_tier|seen|told)\b' | show '4 by hand'
# 5. facts in three requires or more, and parameters that travel together
src | xargs grep -hoE 'requires( \w+)? \{.*\}' | sed -E 's/requires( \w+)? //; s/\.(old|new|now)\b//g' | sort | uniq -c | sort -rn | awk '$1>=3' | show '5a facts in three requires or more'
src | xargs grep -hoE 'requires( \w+)? \{.*\}' | sed -E 's/requires( \w+)? //; s/\.(old|new|now)\b//g' | sort | uniq -c | awk '$1>=3 {for (i=0;i<$1;i++) print}' | show '5b (their places)'
src | xargs cat | awk '/fn / {sig=""; on=1} on {sig=sig $0} on && /\{$|;$|requires|ensures/ {if (sig ~ /net: &/ && sig ~ /flow: &/ && sig ~ /prices: &/) print sig; on=0}' | sed -E 's/ +/ /g' | cut -c1-100 | show '5c functions over net, flow and prices'
# 6. buffers with a length beside, sentinels, indices
src | xargs grep -nE '^ +(pub )?\w+: (\[.*; [0-9]+\]|usize),' | grep -E '(places|entries|rows|lines|count|saved|next|parent)' | show '6 buffers and lengths beside'
# 7. switches on which step to run
src | xargs grep -nE 'class: Class|Class::|fn (raise|check_rows|read_rows)\b' | show '7 switches'
# 8. proofs
find crates -path '*/out' -prune -o -path '*/proofs/*' -name 'Answers.antt' -print | xargs grep -nE '^pub \S+ : ' | show '8a answers'
find crates -path '*/out' -prune -o -path '*/proofs/*' -name '*.antt' ! -name 'Answers.antt' ! -name 'Invariants.antt' -print | xargs grep -nE '^(pub )?[a-z]\S* : ' | show '8b lemmas'
find crates -path '*/out' -prune -o -path '*/proofs/*' -name '*.antt' -print | xargs cat | show '8c lines of proofs'
