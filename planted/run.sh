#!/bin/sh
# Plants each bug of this folder in a copy, one at a time, and says at which fact the check refuses it.
#   planted/run.sh [CRATE ..]     the crates' bugs (no name: all)
# A bug is an edit of a crate's code, written as its must-fail edits are; a folder here holds the bugs of the crate of its
# name. Ends with the number refused, and fails if one is not, or if one cannot be planted.
set -u
here=$(cd "$(dirname "$0")" && pwd)
repository=$(dirname "$here")
work=$(mktemp -d) || exit 1
trap 'rm -rf "$work"' EXIT
cd "$repository" || exit 1
git ls-files -z crates crates.txt | xargs -0 cp --parents -t "$work" || exit 1
[ $# -gt 0 ] || set -- $(cd "$here" && ls -d */ | tr -d /)
for crate in "$@"; do
    mkdir -p "$work/crates/$crate/must-fail"
    rm -f "$work/crates/$crate"/must-fail/*.edit
    cp "$here/$crate"/*.edit "$work/crates/$crate/must-fail/" || exit 1
done
cd "$work" || exit 1
for crate in "$@"; do
    # What the crates below were proved to be is kept by the check, so each bug costs its own crate alone.
    (cd "crates/$crate" && rt check >/dev/null 2>&1)
    rt must-fail "$crate" 2>&1 | grep "^rt: must-fail $crate/"
done | tee said
refused=$(grep -c ': refused, as it must be' said)
others=$(grep -vc ': refused, as it must be' said)
echo "planted: $refused refused, $others not"
[ "$others" -eq 0 ]
