#!/usr/bin/env bash
# Lists the lines of src/ in which docs/DESIGN-PASS.md looks for its places, point by point.
# usage: tools/places.sh [COMMIT]    (HEAD if none is named; tests are left out)
set -u
at=${1:-HEAD}
hits() {
    echo "== $1"
    git grep -nE -e "$2" "$at" -- 'crates/*/src/*.rt' ':!crates/*/src/tests.rt' | sed "s/^$at://"
}
hits "1a enums" '^\s*(pub(\(crate\))? )?enum [A-Z]'
hits "1b numbers for kinds" '(kind|phase|side|mate): u(8|32)|const [A-Z]+: u8'
hits "1c numbers as answers" '\) -> (u8|usize|u32)\b'
hits "1d flags for refusals" '&mut (self|B|T).*-> bool'
hits "2a ranges" 'fn is_[a-z]+\(number: u32\)'
hits "2b one of each side" '^\s*(pub(\(crate\))? )?(buy|sell|buys|sells): [A-Z]'
hits "2c switches on a side" 'match \(?(self\.|order\.)?side'
hits "2d ranks and remainders" 'fn (precedes|ranks_before|less)\b'
hits "2e dates" 'fn [a-z_]*(march|november|new_year)'
hits "2f finders" 'fn (find|found_in|place|place_of|find_order)\b'
hits "2g rows of text" 'fn [a-z]+_text\b'
hits "3 loops" '^\s*(for|while|loop)\b'
hits "3 counters" '(line|column|len|i|at) \+= 1;|column \+= '
hits "4 conversions" 'fn (of|number|answer|bytes|letter|word_of|is_text|value_of)\b'
hits "4 order" '(moment|number|maker) < other\.'
hits "5 repeated facts" 'requires .*(7305|< 20|≤ 256|65536|65537|≡ 10|SettlesSession)|ensures (lawful|sound)'
hits "5 many parameters" '^\s+[a-f]: u32,$'
hits "6 buffers and searches" '^\s*len: usize,|fn (insert_at|remove_at|rank_place)|const (NUMBERS|MINUTE)'
hits "7 switches on a step" 'ask: Ask'
