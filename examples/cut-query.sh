#!/usr/bin/env bash
# One query, cut after each of its bytes: each part is refused where it stops being the beginning of a query, and the whole is answered.
set -eu
LC_ALL=C

text="$(
    cat <<'TEXT'
PREFIX e: <http://e.org/>
SELECT DISTINCT ?x WHERE { # who
  { ?x a e:T ; e:p 'a\t'@en, 5 } UNION { $x e:q "b"^^e:d }
  FILTER(?x != e:y || !(?x = <u:v>) && ?x >= -1)
}
TEXT
)"
for ((length = 0; length <= ${#text}; length++)); do
    printf 'scan\n%s\nend\n' "${text:0:length}"
done
