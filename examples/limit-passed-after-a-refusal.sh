#!/usr/bin/env bash
# A line that begins no command stands before the one of the first byte past the limit, and is refused.
set -eu

limit=67108864
front=$'answers q\nbogus\nx'
printf '%s' "$front"
head -c "$((limit - ${#front} + 1))" /dev/zero | tr '\0' x
