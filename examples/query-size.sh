#!/usr/bin/env bash
# Queries at each limit and past it: 65,536 bytes, 64 levels of braces, 16 triple patterns, 32 variables, 128 nodes of a tree.
set -eu

scan() { printf 'scan\n%s\nend\n' "$1"; }

# the text so many times, with the number of each in place of N
many() {
    local number
    for ((number = 1; number <= $1; number++)); do printf '%s' "${2//N/$number}"; done
}

text='SELECT DISTINCT ?x WHERE { ?x ?p ?y }'
scan "$(printf '%-65535s' "$text")"
scan "$(printf '%-65536s' "$text")"

scan "SELECT DISTINCT ?x WHERE $(many 64 '{') ?x ?p ?y $(many 64 '}')"
scan "SELECT DISTINCT ?x WHERE $(many 65 '{')"

scan "SELECT DISTINCT ?x WHERE {$(many 16 ' ?x ?p ?y .')}"
scan "SELECT DISTINCT ?x WHERE {$(many 17 ' ?x ?p ?y .')}"

scan "SELECT DISTINCT ?x1 WHERE {$(many 16 ' ?xN <a:p> ?yN .')}"
scan "SELECT DISTINCT ?x1 WHERE {$(many 15 ' ?xN <a:p> ?yN .') ?x ?y ?z }"

# a pattern and 62 filters around it are 63 nodes, two of them with their union 127, and what is selected is one more
side="$(many 62 '{ ') ?x ?p ?y $(many 62 'FILTER(?x = ?x) } ')"
scan "SELECT DISTINCT ?x WHERE { $side UNION $side }"
scan "SELECT DISTINCT ?x WHERE { $side UNION $side FILTER(?x = ?x) }"
