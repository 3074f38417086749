#!/bin/sh
# The token of a detached counter must be spent once. Each edit here misuses it so that the compiler refuses the code with
# the error named, before anything is proved. The twin stands in the same place and is lawful: the compiler takes it, and
# where the edit says so it is proved as well.
# `rt must-fail` takes only edits that reach the prover, so these have a script of their own.
here=$(cd "$(dirname "$0")" && pwd) bad=0

# What the copies are checked against, proved once.
(cd "$here/../crates/counters" && rt check >/dev/null 2>&1) || { echo "counters are not proved"; exit 1; }

field() { sed -n "s/^$2: //p" "$1"; }

# edited EDIT FIELD DIR: a copy of the repository in DIR, with the edit's old text replaced by the field's
edited() {
    file=$(field "$1" file)
    tar -C "$here/.." --exclude='crates/*/out' -cf - crates.txt crates | tar -C "$3" -xf -
    OLD=$(field "$1" old) NEW=$(field "$1" "$2") awk '
        { text = text $0 "\n" }
        END {
            old = ENVIRON["OLD"]; at = index(text, old)
            if (!at) exit 3
            printf "%s%s%s", substr(text, 1, at - 1), ENVIRON["NEW"], substr(text, at + length(old))
        }' "$here/../$file" >"$3/$file" || { echo "BAD EDIT ${1##*/}"; return 1; }
}

for edit in "$here"/*.edit; do
    want=$(field "$edit" error)
    lawful=$(field "$edit" twin-is)
    for kind in new twin; do
        dir=$(mktemp -d)
        edited "$edit" "$kind" "$dir" || { bad=1; rm -rf "$dir"; continue; }
        if (cd "$dir/crates/counters" && rt check) >"$dir/log" 2>&1; then ended=proved
        elif grep -q "error\[$want\]" "$dir/log"; then ended=refused
        elif grep -q "error\[" "$dir/log"; then ended=other
        else ended=taken; fi
        case $kind-$ended in
            new-refused) echo "refused ${edit##*/}: $want" ;;
            twin-$lawful) echo "the twin of ${edit##*/} is $lawful" ;;
            *) echo "UNEXPECTED ${edit##*/}, $kind: $ended"; grep -m3 error "$dir/log"; bad=1 ;;
        esac
        rm -rf "$dir"
    done
done
exit $bad
