#!/usr/bin/env bash
# As many bytes as a script may have, in a text that has no end: the line on which the text passes its own limit is refused.
set -eu

limit=67108864
front=$'answers q\nload c1\n'
printf '%s' "$front"
head -c "$((limit - ${#front}))" /dev/zero | tr '\0' x
