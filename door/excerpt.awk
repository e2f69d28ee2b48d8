# Tells what stands at the column of a line at which a text is refused, and then shows the line round it with a mark below,
# and up to four lines more where a clause begins there that cannot be read. The lines are text of anyone: a byte that is
# no UTF-8, and a control character other than a tab, is shown as a question mark. LC_ALL has to be C: all counts bytes.
BEGIN {
    for (i = 1; i < 256; i++) code[sprintf("%c", i)] = i
    WINDOW = 160
}

function byte(text, at) { return code[substr(text, at, 1)] + 0 }

# how many bytes the character at a place has; 0 where the bytes there are no UTF-8
function width(text, at,   a, b, n, k) {
    a = byte(text, at); b = byte(text, at + 1)
    if (a < 128) return 1
    if (a < 194 || a > 244 || (a == 224 && b < 160) || (a == 237 && b > 159) || (a == 240 && b < 144) || (a == 244 && b > 143)) return 0
    n = a < 224 ? 2 : a < 240 ? 3 : 4
    for (k = 1; k < n; k++) { b = byte(text, at + k); if (b < 128 || b > 191) return 0 }
    return n
}

# what stands at a place where no token can be read
function class(text, at,   c, b) {
    c = substr(text, at, 1); b = byte(text, at)
    if (c == "'" || c == "\"") return "quote"
    if (substr(text, at, 2) == "/*") return "comment"
    if (c ~ /[0-9]/) return "number"
    if (c == "`") return "back_quote"
    if (c == "\\") return "escape"
    if (b > 127) return width(text, at) ? "past_ascii" : "not_utf8"
    return b < 32 || b == 127 ? "control" : "no_end"
}

# shows at most WINDOW bytes of a line round a place, and below a mark where `marked` is set
function show(text, place, marked,   at, end, n, b, c, shown, gap) {
    at = place > WINDOW / 2 ? place - WINDOW / 2 : 1
    while (at > 1 && at < place && byte(text, at) > 127 && byte(text, at) < 192) at++
    end = at + WINDOW
    if (at > 1) { shown = "..."; gap = "   " }
    while (at < end && at <= length(text)) {
        n = width(text, at); b = byte(text, at)
        if (at + n > end) break
        c = n == 0 || b < 32 && b != 9 || b == 127 ? "?" : substr(text, at, n)
        if (at < place) gap = gap (b == 9 ? "\t" : " ")
        shown = shown c
        at += n == 0 ? 1 : n
    }
    print "    " shown (at <= length(text) ? "..." : "")
    if (marked) print "    " gap "^"
}

{ sub(/\r$/, "") }
NR == 1 {
    of = class($0, column)
    print of
    show($0, column, 1)
    rest = substr($0, column)
    if (kind != "syntax" && !(kind == "lex" && of == "no_end")) exit
}
NR > 1 { show($0, 1, 0); rest = $0 }
rest ~ /\.[ \t]*(%.*)?$/ { exit }
