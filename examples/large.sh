#!/usr/bin/env bash
# Makes large.bench and large.dump here: a netlist of so many signals, and so many cycles of an eighth of its flip-flops.
# usage: large.sh SIGNALS CYCLES [REACH]
# A sixteenth of the signals are inputs and an eighth flip-flops; the others are AND, OR and XOR gates of two earlier signals.
# With REACH the logic is deep: pins are among so many signals before the gate, and two gates in five are buffers.
# All signals are 0 in one of its executions, and the dump is of that one.
set -eu
awk -v signals="$1" -v cycles="$2" -v reach="${3:-0}" '
function draw(below) { state = (state * 16807) % 2147483647; return state % below }
function pin(gate) { return reach > 0 && gate > reach ? gate - reach + draw(reach) : draw(gate) }
function pins(gate, kind) { return "n" pin(gate) (kind == "BUFF" ? "" : ", n" pin(gate)) }
BEGIN {
    state = 1
    count = split(reach > 0 ? "AND OR XOR BUFF BUFF" : "AND OR XOR", kinds, " ")
    inputs = int(signals / 16); flip_flops = int(signals / 8); first_gate = inputs + flip_flops
    for (s = 0; s < inputs; s++) print "INPUT(n" s ")" > "large.bench"
    for (s = first_gate; s < signals; s++) {
        kind = kinds[draw(count) + 1]
        print "n" s " = " kind "(" pins(s, kind) ")" > "large.bench"
    }
    for (s = inputs; s < first_gate; s++) print "n" s " = DFF(n" draw(signals) ")" > "large.bench"
    zeros = "0"; while (length(zeros) < cycles) zeros = zeros zeros
    zeros = substr(zeros, 1, cycles)
    print "srdump 1\ncycles " cycles > "large.dump"
    for (s = inputs; s < first_gate; s += 8) print "n" s " " zeros > "large.dump"
}'
