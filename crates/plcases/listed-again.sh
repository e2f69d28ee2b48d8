#!/bin/sh
# Lists each example, and its listing again: a listing is to be its own listing.
#
#     crates/plcases/listed-again.sh
set -eu
here=$(cd "$(dirname "$0")/../.." && pwd)
work=$(mktemp -d)
trap 'rm -rf "$work"' EXIT
for program in "$here"/examples/*.pl; do
    "$here/prolog" list "$program" > "$work/once.pl"
    "$here/prolog" list "$work/once.pl" > "$work/again.pl"
    if ! cmp -s "$work/once.pl" "$work/again.pl"; then
        echo "$program: its listing lists as another" >&2
        exit 1
    fi
    echo "$(basename "$program"): $(wc -l < "$work/once.pl") lines, the same again"
done
