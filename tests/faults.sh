#!/bin/sh
# Whether the comparison bites: with each fault of the reference (reference.h lists them) it has to find a mismatch, or
# memory touched that was not lent, in at most 20,000 cases.
faults=$(($(grep -c '^ *FAULT_[A-Z0-9_]*,' "$(dirname "$0")/reference.h") - 1)) # all but FAULT_NONE
fault=1
while [ "$fault" -le "$faults" ]; do
    "$1" --break "$fault" --count 20000 >/dev/null 2>&1
    found=$?
    if [ "$found" -ne 1 ] && [ "$found" -ne 2 ]; then
        echo "fault $fault of the reference is not found: exit $found"
        exit 1
    fi
    fault=$((fault + 1))
done
echo "faults: each of $faults wrong references is found out"
