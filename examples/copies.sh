#!/usr/bin/env bash
# Makes copies.bench here: netlists one behind another, so many times, where the inputs of each are fed by the outputs of the one before it.
# usage: copies.sh COPIES NETLIST..
set -eu
copies="$1"
shift
awk -v copies="$copies" '
function renamed(text, prefix,    out, name) {
    out = ""
    while (match(text, /[^ \t(),=]+/)) {
        name = substr(text, RSTART, RLENGTH)
        out = out substr(text, 1, RSTART - 1) prefix name
        text = substr(text, RSTART + RLENGTH)
    }
    return out text
}
{ sub(/#.*/, ""); gsub(/[ \t\r]/, "") }
$0 == "" { next }
FNR == 1 || FILENAME != last { last = FILENAME; nets++ }
{
    head = toupper($0)
    if (head ~ /^INPUT\(/) inputs[nets, ++count_in[nets]] = substr($0, 7, length($0) - 7)
    else if (head ~ /^OUTPUT\(/) outputs[nets, ++count_out[nets]] = substr($0, 8, length($0) - 8)
    else { lines[nets, ++count[nets]] = $0 }
}
END {
    for (copy = 0; copy < copies; copy++) for (net = 1; net <= nets; net++) {
        prefix = "c" copy "_" net "."
        for (i = 1; i <= count_in[net]; i++)
            if (before == "") print "INPUT(" prefix inputs[net, i] ")"
            else print prefix inputs[net, i] " = BUFF(" before outputs[fed, (i - 1) % count_out[fed] + 1] ")"
        for (i = 1; i <= count[net]; i++) {
            equals = index(lines[net, i], "="); bracket = index(lines[net, i], "(")
            print prefix substr(lines[net, i], 1, equals - 1) " = " substr(lines[net, i], equals + 1, bracket - equals) renamed(substr(lines[net, i], bracket + 1), prefix)
        }
        before = prefix; fed = net
    }
    for (i = 1; i <= count_out[fed]; i++) print "OUTPUT(" before outputs[fed, i] ")"
}' "$@" >copies.bench
