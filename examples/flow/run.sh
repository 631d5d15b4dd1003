#!/usr/bin/env bash
# Goes from the Verilog of uart.v to tables and waveforms, and says what it does. usage: run.sh [FOLDER]
# The files are made in FOLDER, or where none is given in a new one, so that they can be compared with those kept here.
# Where yosys with ABC, or Icarus, is not installed, the kept netlist or waveform is taken.
set -eu
here=$(cd "$(dirname "$(readlink -f "$0")")" && pwd)
srestore=${SRESTORE:-$here/../../bin/srestore}
if [ $# -gt 0 ]; then
    mkdir -p "$1"
    cd "$1"
else
    cd "$(mktemp -d)"
fi
echo "in $PWD"

step() {
    echo
    echo "== $1"
}

# The chip's place in the waveform, and what the trace buffer has.
wave=(uart.vcd scope=uart_tb.dut clock=clk)
traced=('tx.shift[0]' 'rx.line[1]' rx.divider tx.divider)

step 'a netlist of the Verilog'
if command -v yosys >/dev/null && [ -n "$(command -v berkeley-abc yosys-abc abc)" ]; then
    "$here/verilog_to_bench" uart uart.bench "$here/uart.v"
else
    echo 'yosys or ABC is not installed: the kept netlist is taken'
    cp "$here/uart.bench" .
fi

step 'a simulation, which stands for the chip'
if command -v iverilog >/dev/null; then
    iverilog -o uart.sim "$here/uart.v" "$here/uart_tb.v"
    vvp -n uart.sim
else
    echo 'iverilog is not installed: the kept waveform is taken'
    cp "$here/uart.vcd" .
fi

step 'two dumps: the traced flip-flops alone, and with two inputs'
"$here/vcd_to_dump" "${wave[@]}" "${traced[@]}" >uart.dump
"$here/vcd_to_dump" "${wave[@]}" "${traced[@]}" rst write >uart.inputs.dump

step 'does each row stand for a flip-flop or an input?'
"$here/names" uart.bench uart.dump
"$here/names" uart.bench uart.inputs.dump

step 'two tables'
for dump in uart uart.inputs; do
    "$srestore" restore uart.bench $dump.dump >$dump.table
    tail -n 1 $dump.table
done

step 'four flip-flops worth tracing, with the reset held still, and what a trace of them would restore'
sed 's/^INPUT(rst)$/rst = XOR(write, write)/' uart.bench >still.bench
"$srestore" select still.bench width=4 cycles=256 seed=1 >picks
cat picks
cut -d ' ' -f 1 picks >picks.names
"$here/vcd_to_dump" "${wave[@]}" names=picks.names >picks.dump
"$srestore" restore uart.bench picks.dump | tail -n 1

step 'a waveform: the simulation, and beside it, in the scope `restored`, the table'
"$here/table_to_vcd" uart.inputs.table "${wave[@]}" >uart.both.vcd
echo 'to see it: gtkwave uart.both.vcd'

step 'a dump with one row a cycle late, and which row that is'
awk '$1 == "rx.line[1]" { $2 = "x" substr($2, 1, length($2) - 1) } { print }' uart.inputs.dump >uart.late.dump
SRESTORE=$srestore "$here/suspects" uart.bench uart.late.dump || [ $? -eq 1 ]
