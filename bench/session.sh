#!/bin/bash
# session.sh MATCHER: processor time of a session for pipelined looks at the edition, and how it grows with their number.
# Prints, for 50,000, 100,000 and 200,000 requests, the seconds of processor time, the microseconds for each, and the ratio to half as many.
set -e
matcher=$(realpath "$1")
folder=$(mktemp -d)
trap 'rm -rf "$folder"' EXIT
cd "$folder"
before=
for count in 50000 100000 200000; do
    python3 -c "
import sys
sys.stdout.buffer.write(b'GET /edition HTTP/1.1\r\nHost: desk\r\nX-Chair: ann\r\n\r\n' * $count)" > requests
    rm -f desk.db
    spent=$( { TIMEFORMAT='%U %S'; time "$matcher" session ann < requests > replies; } 2>&1 | awk '{ print $1 + $2 }')
    replies=$(grep -ao 'HTTP/1.1 200 OK' replies | wc -l)
    awk -v n="$count" -v r="$replies" -v s="$spent" -v b="$before" 'BEGIN {
        printf "%d requests, %d replies of 200: %.3f s, %.2f microseconds for each", n, r, s, s * 1000000 / n
        if (b != "") printf ", %.2f times half as many", s / b
        printf "\n"
    }'
    before=$spent
done
