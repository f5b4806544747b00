#!/usr/bin/env bash
# Documents of 10,000 triples and of 10,001, of which the first has as many as a document may. It takes nine steps a triple,
# and two.
set -eu

for triples in 10000 10001; do
    echo "load c$((triples - 9999))"
    seq -f '<a:%.0f> <a:p> <a:o> .' 0 "$((triples - 1))"
    echo "end"
done
cat <<'END'
step c1 1000000
register c1 q
SELECT DISTINCT ?y WHERE { ?x ?y <a:o> }
end
step c1 1000000
answers q
END
