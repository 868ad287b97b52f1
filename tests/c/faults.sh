#!/bin/sh
# Runs compare, as it is built with faults.c, with each mistake in turn; each must be noticed as a difference.
#
#     faults.sh PROGRAM
program=$1 fault=0
if ! FAULT=0 "$program" 20 >"$program.out" 2>&1; then
    cat "$program.out"
    echo "compare finds a difference without any mistake"
    exit 1
fi
while fault=$((fault + 1)); FAULT=$fault "$program" 100 >"$program.out" 2>&1; status=$?; [ "$status" -ne 3 ]; do
    if [ "$status" -ne 1 ]; then
        echo "mistake $fault of faults.c is NOT noticed: status $status"
        exit 1
    fi
done
rm -f target/compare-failed.tif target/compare-failed.map
echo "compare notices each of $((fault - 1)) mistakes"
