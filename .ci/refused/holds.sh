#!/usr/bin/env bash
# A hold is spent by handing it back and in no other way: the compiler refuses a program that lets one fall, takes one
# apart, forges one or uses one twice. It reads the sources as they stand; nothing is proved here.
set -eu
root=$(cd "$(dirname "$0")/../.." && pwd)
work=$(mktemp -d)
trap 'rm -rf "$work"' EXIT

# The crates that the program uses, as they stand, beside the program.
mkdir -p "$work/crates/holder/src"
for name in network soonest board; do
    mkdir "$work/crates/$name"
    cp -r "$root/crates/$name/src" "$root/crates/$name/specs" "$root/crates/$name/proofs" "$work/crates/$name/"
done
printf 'network:\nsoonest: network\nboard: network soonest arrayvec\nholder: network soonest board\n' >"$work/crates.txt"

# A program that makes a board with one bay, and then does what it is given.
compile() { # STATEMENTS
    printf '#![tactic(auto)]\n\nuse board::{Board, Hold};\n\nfn main() {\n    if let Ok(mut board) = Board::new(7, &[1]) {\n        %s\n    }\n}\n' "$1" >"$work/crates/holder/src/main.rt"
    (cd "$work/crates/holder" && rt try) </dev/null >"$work/said" 2>&1
}

program="$work/crates/holder/src/main.rt"
. "$root/.ci/refused/trials"

back='match board.hand_back(hold) { Ok(()) => {} Err(_returned) => unreachable() }'
accepted 'a hold that is handed back' "if let Ok(hold) = board.hold(0) { $back }"
refused 'a hold that falls at the end of its scope' linear-value-let-go 'if let Ok(hold) = board.hold(0) { let _site = hold.site(); }'
refused 'a hold that is taken apart' private-field 'if let Ok(hold) = board.hold(0) { let Hold { number: _, site: _ } = hold; }'
refused 'a hold that is forged' private-field "let hold = Hold { number: 7, site: 0 }; $back"
refused 'a hold that is used twice' borrow-e0382 "if let Ok(hold) = board.hold(0) { $back $back }"
refused 'a hold that comes back and then falls' linear-value-let-go 'if let Ok(hold) = board.hold(0) { match board.hand_back(hold) { Ok(()) => {} Err(_returned) => {} } }'
