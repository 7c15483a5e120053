#!/bin/bash
# The places of the design pass, as docs/DESIGN-PASS.md counts them: one command for each point, each place a line.
# Run at the top of the repository: tools/places.sh [POINT]
cd "$(dirname "$0")/.." || exit 1
src=(crates/*/src)

say() { echo "== $1"; }

# 1: flags, numbers for kinds or refusals, success told by a bool or by (), and functions between an enum and its number
point1() {
    grep -rnE 'Option<\(\)>|Result<\(\), usize>|Result<bool>|let mut \w+ = (true|false);|fn \w+\(&mut self.*-> bool$|^ *pub (number|kind|mark|table|second): (u8|usize),$|fn (from_number|numbered|number|number_of|code)\((self|number|quantity)' "${src[@]}"
}

# 2: names that stand at more than one function that is no trait's
point2() {
    grep -rhoE '\bfn \w+' "${src[@]}" | sort | uniq -cd | grep -vE 'fn (fmt|from|main|run|low|high|both|either|inverse|plain)$'
}

# 3: loops
point3() {
    grep -rnE '^ *(for|while|loop)\b' "${src[@]}"
}

# 4: conversions and texts by functions of their own, comparison by bytes
point4() {
    grep -rnE 'fn (from_word|numbered|from_number|number_of|number|word|code|name_of|earliest_start|field_fault|verdict)\((self|word|number|quantity|table|fault|strictness)|as_bytes\(\) ==' "${src[@]}"
}

# 5: facts in the contracts of three or more functions, and parameters that travel together
point5() {
    python3 tools/facts.py
}

# 6: arrays of fixed size
point6() {
    grep -rnE '^ *(pub )?\w+: \[\w+; *\w+\],$' "${src[@]}"
}

# 7: function pointers, dyn, and matches on an operation or a kind that pick what to run
point7() {
    grep -rnE '\bfn\(|\bdyn |match (op|kind|word|line)\b' "${src[@]}"
}

# 8: answers, by crate: files and goals
point8() {
    grep -rcE '^pub \S+ : goal\.' crates/*/proofs --include=Answers.antt |
        awk -F'[/:]' '{ goals[$2] += $NF; files[$2]++ } END { for (c in goals) print c, files[c], goals[c] }' | sort
}

for n in ${1:-1 2 3 4 5 6 7 8}; do
    say "$n"
    "point$n"
done
