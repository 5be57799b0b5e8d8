#!/bin/sh
# A bill: counts and prices in cents are a table, and the calculator multiplies and adds them. It shows how a shell script hands a table to
# aplrun, reads values back, and learns by the status that a line was refused.
set -eu

here=$(dirname "$0")
PATH=$here/../tools:$PATH
entries='coffee 3 250
cake 2 480
returned 1 -300'

folder=$(mktemp -d)
trap 'rm -rf "$folder"' EXIT
printf '%s\n' "$entries" | awk '{ print $2 "," $3 }' > "$folder/bill.csv"

# Runs the lines over the table T.
bill() { aplrun --table T="$folder/bill.csv" "$@"; }

# Cents as euros, a number a line.
euros() { printf '%s\n' "$1" | tr , '\n' | awk '{ printf "%8.2f\n", $1 / 100 }'; }

products=$(bill -e 'P←T[;1]×T[;2]' --out csv P)
total=$(bill -e 'S←+/T[;1]×T[;2]' --out csv S)
euros "$products"
echo total
euros "$total"

if bill -e '+/T[;3]' 2> "$folder/told"; then
    echo 'there is a third column'
else
    printf 'status %d\n' "$?"
    cat "$folder/told"
fi
