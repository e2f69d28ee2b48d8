#!/bin/sh
# How long it takes to read program texts of 1, 4 and 16 MB: a row for each kind of text, a column for each size, in
# milliseconds. Where reading takes time in proportion to the text, each column is some four times the one before it.
#
#     bench/reading.sh
set -eu
here=$(cd "$(dirname "$0")/.." && pwd)
texts=$(mktemp -d)
trap 'rm -rf "$texts"' EXIT

# text KIND BYTES: a text of that kind, of about so many bytes
text() {
    awk -v kind="$1" -v bytes="$2" '
    function facts(  i) { for (i = 0; made < bytes; i++) put("fact(" i ", a, [b|T], \"cd\").\n") }
    function quoted(  i, name) {
        name = "a"; while (length(name) < 60000) name = name name; name = substr(name, 1, 60000)
        for (i = 0; made < bytes; i++) put("p(" i ", \047" name "\\n\047).\n")
    }
    function operators(  i) { for (i = 0; made < bytes; i++) put("x" i " :- A is 1 + - 2 * B ** 3 - 4 mod C, (A =:= B -> true ; \\+ B < A), A = [B|C].\n") }
    function deep(  i, n) {
        # at most 65,536 levels are open in a clause
        while (made < bytes) {
            put("d(")
            for (i = 0; i < 30000; i++) put("f(")
            put("x")
            for (i = 0; i < 30000; i++) put(")")
            put(").\n")
        }
    }
    function list(  i) {
        put("l([0")
        for (i = 1; made < bytes - 6; i++) put(",a" i)
        put("]).\n")
    }
    function comment() { put("/*"); while (made < bytes - 6) put(" comment\n"); put("*/ a.\n") }
    function put(s) { made += length(s); printf "%s", s }
    BEGIN {
        if (kind == "facts") facts()
        if (kind == "quoted") quoted()
        if (kind == "operators") operators()
        if (kind == "deep") deep()
        if (kind == "list") list()
        if (kind == "comment") comment()
    }' > "$texts/$1.pl"
    # no text passes the greatest size
    if [ "$(wc -c < "$texts/$1.pl")" -gt 16777216 ]; then
        echo "$1: too long" >&2
        exit 1
    fi
}

"$here/prolog" check /dev/null > /dev/null
printf '%-10s %8s %8s %8s   ms\n' text '1 MB' '4 MB' '16 MB'
for kind in facts quoted operators deep list comment; do
    printf '%-10s' "$kind"
    for bytes in 1000000 4000000 16000000; do
        text "$kind" "$bytes"
        start=$(date +%s%N)
        "$here/prolog" check "$texts/$kind.pl" > "$texts/said"
        end=$(date +%s%N)
        grep -q '^clauses ' "$texts/said" || { cat "$texts/said" >&2; exit 1; }
        printf ' %8d' $(((end - start) / 1000000))
    done
    printf '\n'
done
