#!/usr/bin/env bash
# Plants bugs in copies of the crates, one at a time, and says of each what the prover makes of it:
#   fact      refused because a fact in the code fails
#   proofs    refused because an answer in a proof file no longer is one
#   unfit     refused only because a proof file names what the edit took away, which shows little
#   silent    refused, and nothing is said of why
#   PROVED    let through: a contract says too little
#   bad       no longer an edit of its file
# usage: tests/planted/try.sh [CRATE..]      without names: every crate that has a folder here
set -euo pipefail
here=$(cd "$(dirname "${BASH_SOURCE[0]}")" && pwd)
root=$(cd "$here/../.." && pwd)
if [ $# = 0 ]; then
    set -- $(cd "$here" && ls -d */ | tr -d /)
fi

copy=$(mktemp -d)
trap 'rm -rf "$copy"' EXIT
cp -r "$root/crates" "$root/crates.txt" "$copy"
rm -rf "$copy"/crates/*/must-fail

for crate in "$@"; do
    cp -r "$here/$crate" "$copy/crates/$crate/must-fail"
    (cd "$copy" && rt must-fail "$crate" 2>&1) | sed -nE \
        -e 's/^rt: must-fail ([^:]*)\.edit: refused, as it must be: (note: )?src\/(.*)/fact    \1  \3/p' \
        -e 's/^rt: must-fail ([^:]*)\.edit: refused, as it must be: (.*)/proofs  \1  \2/p' \
        -e 's/^rt: must-fail ([^:]*)\.edit: refused, as it must be \(only because.*/unfit   \1/p' \
        -e 's/^rt: must-fail ([^:]*)\.edit: refused, as it must be$/silent  \1/p' \
        -e '/^rt: must-fail .*refused, as it must be/d' \
        -e 's/^rt: must-fail ([^:]*)\.edit: (.*(BAD|NOT TRIED).*)/bad     \1  \2/p' \
        -e '/BAD EDIT|NOT TRIED/d' \
        -e 's/^rt: must-fail ([^:]*)\.edit: (.*)/PROVED  \1  \2/p' || true
    rm -rf "$copy/crates/$crate/must-fail"
done | cut -c1-150 | tee "$copy/all"
echo
cut -d' ' -f1 "$copy/all" | sort | uniq -c
! grep -qE '^(PROVED|bad)' "$copy/all"
