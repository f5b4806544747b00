#!/usr/bin/env bash
# The first line of a text is longer than the rest of the limit: it has the first byte past it, and is refused.
set -eu

limit=67108864
front=$'answers q\nload c1\n'
printf '%s' "$front"
head -c "$((limit - ${#front}))" /dev/zero | tr '\0' x
printf '\nend\n'
