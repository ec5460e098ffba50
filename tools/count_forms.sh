#!/bin/sh
# Counts the places of docs/DESIGN-PASS.md; run it at the top of the repository.
# A count is of lines to read, and not yet of places: the page says which of them are places.
files=$(find crates -path '*/src/*.rt' -not -path '*/out/*' -not -path '*/target/*' | sort)
echo "1  enums, flags, options, numbers for kinds: $(grep -nE 'enum |-> bool|NO_PIN|: Option<' $files | wc -l)"
echo "2  names that two functions have: $(grep -hoE '^ *(pub(\([a-z]+\))? )?fn [a-z_0-9]+' $files | sed -E 's/.*fn //' | sort | uniq -d | wc -l)"
echo "3  loops that count an index: $(grep -nE "^ *('[a-z]+: )?for [a-z_]+ in [^ ].*\.\..* \{|while [a-z_]+ [<>]" $files | wc -l)"
echo "3  loops over the items of a list: $(grep -nE '^ *for .* in [^.]* \{$' $files | wc -l)"
echo "4  equality, order, conversion, printing: $(grep -nE 'fn (number|turn|tried_before|alike|same_pair|in_order|sooner|preference|pin_at|choice|pair|verdict)\b' $files | wc -l)"
echo "5  facts in several contracts: $(grep -hoE 'requires( [a-z]+)? \{.*\}' $files | sed -E 's/requires [a-z]+ \{/requires {/' | sort | uniq -d | wc -l)"
echo "6  arrays in structs and variables: $(grep -nE '^ *(pub(\([a-z]+\))? )?[a-z]+: \[|let mut [a-z]+ = \[' $files | wc -l)"
echo "7  switches on a step, tables of functions: $(grep -nE 'dyn |fn\(|Box<|match \*call|enum Call' $files | wc -l)"
answers=$(find crates -path '*/proofs/*' -name Answers.antt -not -path '*/out/*' | sort)
echo "8  files of answers, and answers: $(echo "$answers" | wc -l), $(cat $answers | grep -c '^pub ')"
echo "8  lines of proofs/ and specs/: $(find crates \( -path '*/proofs/*' -o -path '*/specs/*' \) -name '*.antt' -not -path '*/out/*' | xargs cat | wc -l)"
