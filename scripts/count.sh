#!/bin/sh
# count.sh: reads what `rt ci` says, counts the crates that it proves, or has proved before, and passes on what else it says of crates and edits.

. "$(dirname "$0")/progress.sh"

total=$(grep -c '^[a-z0-9_][a-z0-9_ =]*:' crates.txt)
proved=0
while IFS= read -r line; do
    case $line in
    'rt: '*': its tests are proved' | 'rt: chose '*) ;;
    'rt: '*' proved' | 'rt: '*' is kept: '*)
        proved=$((proved + 1))
        tell "$proved" "$total"
        ;;
    'rt: '*)
        end_line
        printf '%s\n' "$line"
        ;;
    esac
done
end_line
