#!/bin/sh
# A word that isn't text is no command: the answer is `Usage`, status 1. No stored run can pass such a word.
set -u
monoaot=$(dirname "$0")/monoaot
word=$(printf 'p\377.il')
line=$("$monoaot" exec "$word" @all 0 4000000)
status=$?
if [ "$line" = Usage ] && [ "$status" -eq 1 ]; then
    echo "ok"
else
    echo "printed '$line', status $status" >&2
    exit 1
fi
