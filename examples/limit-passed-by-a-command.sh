#!/usr/bin/env bash
# The line after the only command is longer than the rest of the limit, and is refused.
set -eu

limit=67108864
front=$'answers q\n'
printf '%s' "$front"
head -c "$((limit - ${#front} + 1))" /dev/zero | tr '\0' x
