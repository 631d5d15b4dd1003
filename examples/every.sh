#!/usr/bin/env bash
# Prints the name of each so-manieth flip-flop of a netlist, with commas between them, as `trace=` takes them.
# usage: every.sh COUNT NETLIST
set -eu
awk -v every="$1" '
{ sub(/#.*/, ""); gsub(/[ \t\r]/, "") }
toupper($0) ~ /=DFF[(]/ && flip_flops++ % every == 0 { printf "%s%s", comma, substr($0, 1, index($0, "=") - 1); comma = "," }
END { print "" }' "$2"
