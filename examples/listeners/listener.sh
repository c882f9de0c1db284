#!/bin/sh
# An event listener: writes each event to standard error, and answers OK.
printf 'READY\n'
while read -r header; do
    length=${header##*len:}
    body=$(dd bs=1 count="$length" 2>/dev/null)
    printf '%s\n%s\n' "$header" "$body" >&2
    printf 'RESULT 2\nOK'
    printf 'READY\n'
done
