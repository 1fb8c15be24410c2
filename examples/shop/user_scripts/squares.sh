#!/bin/sh
# The squares of the numbers from 1 to $1, a row each.
n=1
while [ "$n" -le "$1" ]; do
    printf '%d\t%d\n' "$n" $((n * n))
    n=$((n + 1))
done
