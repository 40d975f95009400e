#!/bin/sh
# Lists the completed calls of a stamped history by the numbers that a report gives them: number, process, kind, its first and
# last stamp, and what it wrote or showed. usage: calls.sh < caught.csv
if [ "${1-}" = --help ]; then
  echo "usage: calls.sh < caught.csv"
  exit 0
fi
if [ $# -gt 0 ]; then
  echo "usage: calls.sh < caught.csv" >&2
  exit 5
fi
sort -n | awk -F, '
  $2 == "begin" { number[$3] = ++calls; begun[$3] = $1; wrote[$3] = $5 }
  $2 == "end" { print number[$3], "p" $3, $4, "from", begun[$3], "to", $1 ":", wrote[$3] $5 }' | sort -n
