# The line of a query's variables, with a TAB between them: what is selected, and the name behind AS. The query is one that the
# program has answered, so its head is of the grammar.

{ text = text $0 "\n" }

END {
    while (text != "") {
        if (match(text, /^[ \t\r\n]+/) || match(text, /^#[^\r\n]*/) || match(text, /^<[^>]*>/)) {
        } else if (match(text, /^[?$][A-Za-z0-9_\200-\377]+/)) {
            last = "?" substr(text, 2, RLENGTH - 1)
            if (selects && !deep) line = line (line == "" ? "" : "\t") last
        } else if (match(text, /^[A-Za-z0-9_:.\200-\377-]+/)) {
            word = tolower(substr(text, 1, RLENGTH))
            if (word == "select") selects = 1
            if (selects && word == "where") break
        } else {
            mark = substr(text, 1, 1)
            RLENGTH = 1
            if (mark == "{") break
            if (mark == "(") deep++
            if (mark == ")" && !--deep) line = line (line == "" ? "" : "\t") last
        }
        text = substr(text, RLENGTH + 1)
    }
    print line
}
