#!/usr/bin/env bash
# Two texts of comments: the first is as long as a text may be, and the second has one line feed more, on whose line it is refused.
set -eu

comments() {
    local comment
    comment="#$(head -c 1022 /dev/zero | tr '\0' x)"
    yes "$comment" | head -n 16384
}
echo "load c1"
comments
echo "end"
echo "load c2"
comments
echo
echo "end"
