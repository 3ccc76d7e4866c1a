#!/bin/sh
# The built program beside what others wrote: run.sh PROGRAM. What isn't installed is skipped, with a word.
set -u
program=$(realpath "$1")
here=$(dirname "$(realpath "$0")")
status=0
command -v python3 > /dev/null || { echo "Python 3 isn't installed: the validation is skipped"; exit 0; }
echo "== Z88"
python3 "$here/z88.py" "$program" || status=1
echo "== closed forms"
python3 "$here/closed_forms.py" "$program" || status=1
echo "== an independent frame computation, on the examples"
for model in "$here"/../examples/*.report; do
    model=${model%.report}.flex
    report=$(mktemp)
    "$program" analyse < "$model" > "$report"
    printf '%s: ' "$(basename "$model")"
    python3 "$here/frame.py" "$model" "$report" || status=1
    rm -f "$report"
done
exit $status
