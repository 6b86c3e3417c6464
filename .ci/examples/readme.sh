#!/usr/bin/env bash
# README's worked example: its commands are given to the program, which must answer as README says. The help must name each
# command of docs/FORMATS.md, and an argument that is not understood is named. It runs the program as it stands; nothing is
# proved here.
set -eu
root=$(cd "$(dirname "$0")/../.." && pwd)
work=$(mktemp -d)
trap 'rm -rf "$work"' EXIT
cases=$work/cases
mkdir "$cases"

fail() { # WORDS
    echo "$1" >&2
    cat "$work/said" >&2
    exit 1
}

# The blocks marked as console are one dialogue: after $ the program is called, after > stands a command, the rest are answers.
awk '/^```/ { inside = !inside && $0 == "```console"; next } inside' "$root/README.md" >"$work/dialogue"
sed -n 's/^\$ [^ ]*chargefinder //p' "$work/dialogue" | tr ' ' '\n' >"$cases/readme.args"
sed -n 's/^> //p' "$work/dialogue" >"$cases/readme"
grep -v '^[$>] ' "$work/dialogue" >"$cases/readme.stdout"

# The help, and a kind of roads that is not there.
: >"$cases/help"
echo --help >"$cases/help.args"
: >"$cases/argument"
printf '%s\n' examples/town.depot streets >"$cases/argument.args"

cd "$root/crates/chargefinder"
rt try --cases "$cases" --data "examples/town.depot=$root/examples/town.depot" >"$work/said" 2>&1 || fail 'the program does not answer as README says'

commands=$(sed -n '/^| command | answer |/,/^$/p' "$root/docs/FORMATS.md" | cut -d'|' -f2 | grep -oE '`[a-z]+' | tr -d '`' | sort -u)
for command in $commands; do
    grep -qE "^  (.*, )?$command " "$work/said" || fail "the help does not name $command"
done
grep -qF "'streets' is not understood" "$work/said" || fail 'an argument that is not understood is not named'
echo "README's example of $(wc -l <"$cases/readme") commands is answered as it says, and the help names each command"
