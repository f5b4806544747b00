#!/usr/bin/env bash
# Two documents with an IRI of 16,384 bytes and one of 16,385, of which the first is as long as a term may be.
set -eu

for bytes in 16384 16385; do
    echo "load c$((bytes - 16383))"
    printf '<http://e.org/'
    head -c "$((bytes - 15))" /dev/zero | tr '\0' a
    echo '> <http://e.org/p> <http://e.org/b> .'
    echo "end"
done
echo "step c1 1000000"
