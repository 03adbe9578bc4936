#!/bin/bash
# make.sh MATCHER [SIZE]: processor time of `make 7 SIZE` beside `solve whole` and `check` of the same folder, and of each report beside `check`,
# as ratios of sums over ten runs.
set -e
matcher=$(realpath "$1")
size=${2:-25}
here=$(dirname "$(realpath "$0")")
folder=$(mktemp -d)
trap 'rm -rf "$folder"' EXIT
python3 "$here/make_folder.py" 7 "$size" "$folder"
cd "$folder"
TIMEFORMAT='%U %S'
spent() { { time "$@" > out < "$input"; } 2>&1 | awk '{ print $1 + $2 }'; }
made=0 solved=0 checked=0 reported=0
for run in 1 2 3 4 5 6 7 8 9 10; do
    input=/dev/null
    made="$made + $(spent "$matcher" make 7 "$size")"
    solved="$solved + $(spent "$matcher" solve whole)"
    cp out certificate
    input=certificate
    checked="$checked + $(spent "$matcher" check)"
    for what in shares loads papers institutions; do
        reported="$reported + $(spent "$matcher" report "$what")"
    done
    reported="$reported + $(spent "$matcher" report ticket 4711)"
done
awk "BEGIN {
    made = $made; solved = $solved; checked = $checked; reported = ($reported) / 5
    printf \"make 7 $size %.3f s, solve whole %.3f s, check %.3f s, a report %.3f s (sums of ten)\n\", made, solved, checked, reported
    printf \"make / (solve + check) %.2f, report / check %.2f\n\", made / (solved + checked), reported / checked
}"
