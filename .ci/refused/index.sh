#!/usr/bin/env bash
# An index is laid over examined clock roads and nothing else: the compiler refuses a program that lays one over raw tables,
# or over roads that have an index already. It reads the sources as they stand; nothing is proved here.
set -eu
root=$(cd "$(dirname "$0")/../.." && pwd)
work=$(mktemp -d)
trap 'rm -rf "$work"' EXIT

# The crates that the program uses, as they stand, beside the program.
mkdir -p "$work/crates/layer/src"
for name in network clock least soonest queue rows laying guided; do
    mkdir "$work/crates/$name"
    cp -r "$root/crates/$name/src" "$root/crates/$name/specs" "$root/crates/$name/proofs" "$work/crates/$name/"
done
grep -E '^(network|clock|least|soonest|queue|rows|laying|guided):' "$root/crates.txt" >"$work/crates.txt"
echo 'layer: network clock queue laying guided' >>"$work/crates.txt"

# A program that lays an index over what it is lent.
compile() { # TYPE
    cat >"$work/crates/layer/src/main.rt" <<EOF
#![tactic(auto)]

use clock::{ClockRoads, ClockTables};
use guided::GuidedRoads;
use laying::lay;
use queue::{Key, Slot};

fn lays(roads: &$1, sites: &mut [u32], times: &mut [u32], work: &mut [Slot<Key>]) -> bool {
    lay(roads, &[0], 1, sites, times, work).is_ok()
}

fn main() {}
EOF
    (cd "$work/crates/layer" && rt try) </dev/null >"$work/said" 2>&1
}

program="$work/crates/layer/src/main.rt"
. "$root/.ci/refused/trials"

accepted 'an index over examined roads' ClockRoads
refused 'an index over raw tables' mismatched-types ClockTables
refused 'an index over roads that have one' mismatched-types GuidedRoads
