#!/usr/bin/env bash
# Command lines of 1,024 bytes, with a line feed and with a carriage return before it; a comment, which may be longer; and a line
# of 1,025 bytes, which is refused.
set -eu

printf '%-1024s\n' status
printf '%-1024s\r\n' status
printf '#%-2048s\n' status
printf '%-1025s\n' status
