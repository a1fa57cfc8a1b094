#!/bin/sh
# Shows that the check accepts crates/one_owner as it stands, and refuses it under each edit of this folder
# with the error that the edit's line 'says:' names. Such errors come before the prover, so that these
# edits cannot be must-fail edits of the kit. Works on a copy; leaves the repository as it is.
set -u
here=$(cd "$(dirname "$0")" && pwd)
repository=$(dirname "$here")
work=$(mktemp -d) || exit 1
trap 'rm -rf "$work"' EXIT
cp -R "$repository/crates" "$repository/crates.txt" "$work/" || exit 1
cd "$work" || exit 1

field() { sed -n "s/^$1: //p" "$2"; }

# The file with the one occurrence of OLD replaced by NEW; fails unless OLD stands there exactly once.
replace() {
    OLD=$2 NEW=$3 awk '
        BEGIN { old = ENVIRON["OLD"]; new = ENVIRON["NEW"] }
        {
            at = index($0, old)
            if (at) {
                found++
                $0 = substr($0, 1, at - 1) new substr($0, at + length(old))
                if (index(substr($0, at + length(new)), old)) found++
            }
            print
        }
        END { exit found == 1 ? 0 : 1 }' "$1"
}

check() { (cd crates/one_owner && rt check); }

if ! check >accepted.log 2>&1; then
    cat accepted.log
    echo "refused/check.sh: crates/one_owner is not accepted as it stands"
    exit 1
fi
echo "one_owner as it stands: accepted"

# The edited text of FILE, each 'old:' line of EDIT replaced by the 'new:' line after it.
edited() {
    cp "$1" before
    pair=1
    while [ "$pair" -le "$(grep -c '^old: ' "$2")" ]; do
        replace before "$(field old "$2" | sed -n "${pair}p")" "$(field new "$2" | sed -n "${pair}p")" >after || return 1
        mv after before
        pair=$((pair + 1))
    done
    cat before
}

failed=0
for edit in "$here"/*.edit; do
    name=$(basename "$edit" .edit)
    file=$(field file "$edit")
    says=$(field says "$edit")
    cp "$file" kept
    if ! edited kept "$edit" >"$file"; then
        echo "$name: a text to replace does not stand once in $file"
        failed=1
    elif check >edited.log 2>&1; then
        echo "$name: NOT REFUSED"
        failed=1
    elif grep -qF "error[$says]" edited.log; then
        echo "$name: refused with $says, as it must be"
    else
        echo "$name: refused, but not with $says:"
        grep -m 3 error edited.log
        failed=1
    fi
    cp kept "$file"
done
exit $failed
