# Where a query is refused, in words: the line, the column in characters, and what is wrong. Variables: at, the byte from 0; kind;
# words, the file with the words of each kind.

BEGIN {
    FS = "\t"
    while ((getline < words) > 0) if ($1 == "query") said[$2, ++many[$2]] = $3
    FS = " "
}

{ text = text (NR > 1 ? "\n" : "") $0 }

# A prefixed name, a word, a variable, an IRI or a string, or else a character.
function token(rest) {
    if (match(rest, /^[?$][A-Za-z0-9_\200-\377]+/)) return substr(rest, 1, RLENGTH)
    if (match(rest, /^<[^ \r\n>]*>/)) return substr(rest, 1, RLENGTH)
    if (match(rest, /^[A-Za-z_:][A-Za-z0-9_:.\200-\377-]*/)) return substr(rest, 1, RLENGTH)
    if (match(rest, /^[\302-\337][\200-\277]/)) return substr(rest, 1, 2)
    if (match(rest, /^[\340-\357][\200-\277][\200-\277]/)) return substr(rest, 1, 3)
    if (match(rest, /^[\360-\364][\200-\277][\200-\277][\200-\277]/)) return substr(rest, 1, 4)
    return substr(rest, 1, 1)
}

END {
    before = substr(text, 1, at)
    line = gsub(/\n/, "\n", before) + 1
    row = before
    sub(/.*\n/, "", row)
    column = length(row) - gsub(/[\200-\277]/, "", row) + 1
    here = token(substr(text, at + 1))
    which = 1
    if (kind == 1 && here ~ /^[\200-\377]$/) which = 2
    if (kind == 2) {
        if (here ~ /^</ || here ~ /:/) which = 2
        else if (here == "{") which = 4
        else if (tolower(here) == "select" && tolower(before) !~ /(^|[^a-z0-9_:?$<\/#.-])select([^a-z0-9_:]|$)/) which = 3
    }
    message = said[kind, which]
    if (at >= length(text)) message = message ": the end of the query"
    else if (which == 1 && kind < 5 && here !~ /[\r\n]/) message = message ": " here
    else if (which == 2 && kind == 2) message = message ": " here
    print line ":" column ": " message
}
