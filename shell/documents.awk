# Cuts the lines of a file of N-Triples into documents, and writes each as a load of a script. A document has at most 10,000
# lines with a triple, and 16,000,000 bytes. Variables: file, its number; after, the command behind each load; documents, the
# file to which the file's number and the first line of each document go; clash, that to which the line and the label go of a
# blank node that stands in two documents; genid, where blank nodes are to become IRIs, the IRI under which they stand.

function begin() {
    document++
    open = 1
    triples = 0
    bytes = 0
    print "load c1"
    print file, number > documents
}

function finish() {
    print "end"
    print after
    open = 0
}

# A blank node's label, with what the node becomes.
function node(label) {
    if (genid != "" && label ~ /^[A-Za-z0-9_:.-]+$/) return "<" genid "/" label ">"
    if (label in where && where[label] != document) {
        print number, "_:" label > clash
        failed = 1
        exit
    }
    where[label] = document
    return "_:" label
}

# The blank nodes of a line in the places of its subject and its object. A line that isn't a triple stays as it is: the program has
# the word there.
function with_nodes(text,    front, rest) {
    match(text, /^[ \t]*/)
    front = substr(text, 1, RLENGTH)
    rest = substr(text, RLENGTH + 1)
    if (match(rest, /^_:[A-Za-z0-9_:\200-\377][A-Za-z0-9_:.\200-\377-]*/)) {
        while (substr(rest, RLENGTH, 1) == ".") RLENGTH--
        front = front node(substr(rest, 3, RLENGTH - 2))
        rest = substr(rest, RLENGTH + 1)
    } else if (match(rest, /^<[^>]*>/)) {
        front = front substr(rest, 1, RLENGTH)
        rest = substr(rest, RLENGTH + 1)
    } else return text
    if (!match(rest, /^[ \t]*<[^>]*>[ \t]*/)) return front rest
    front = front substr(rest, 1, RLENGTH)
    rest = substr(rest, RLENGTH + 1)
    if (!match(rest, /^_:[A-Za-z0-9_:\200-\377][A-Za-z0-9_:.\200-\377-]*/)) return front rest
    while (substr(rest, RLENGTH, 1) == ".") RLENGTH--
    return front node(substr(rest, 3, RLENGTH - 2)) substr(rest, RLENGTH + 1)
}

function take(text,    size, is_triple) {
    number++
    # a line of just this word would end the text; with a blank behind it it is refused as the same line
    if (text == "end") text = "end "
    is_triple = text ~ /^[<_]/ || text !~ /^[ \t]*(#|$)/
    size = length(text) + 1
    if (open && ((is_triple && triples == 10000) || bytes + size > 16000000)) finish()
    if (!open) begin()
    triples += is_triple
    bytes += size
    if (index(text, "_:")) text = with_nodes(text)
    print text
}

# LF, CR and CR LF each end a line.
{
    sub(/\r$/, "")
    if (!index($0, "\r")) {
        take($0)
        next
    }
    count = split($0, parts, "\r")
    for (i = 1; i <= count; i++) take(parts[i])
}

END {
    if (failed) exit
    number++
    if (!document) begin()
    if (open) finish()
}
