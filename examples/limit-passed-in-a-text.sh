#!/usr/bin/env bash
# The second line of a text has the first byte past the limit: it is refused, and not the command whose text is open.
set -eu

limit=67108864
front=$'answers q\nload c2\nx\n'
printf '%s' "$front"
head -c "$((limit - ${#front} + 1))" /dev/zero | tr '\0' x
