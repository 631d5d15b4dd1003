#!/usr/bin/env bash
# Tests the scripts of this folder by small cases, by files of 16 MiB, and by the commands of the pages. usage: test.sh
# It needs no other tool than Python 3 and the program, which it has built, or that which SRESTORE names. The last line counts.
set -u
here=$(cd "$(dirname "$(readlink -f "$0")")" && pwd)
if [ -z "${SRESTORE-}" ]; then
    "$here/../../bin/build" || exit
    SRESTORE=$here/../../crates/srestore/out/srestore
fi
SRESTORE=$(readlink -f "$SRESTORE")
export SRESTORE
PATH=$here:$PATH
dir=$(mktemp -d) || exit 2
trap 'rm -rf "$dir"' EXIT
cd "$dir" || exit 2
passed=0 failed=0

# Compares what a case wrote, and its status, with what it should: case NAME STATUS TEXT COMMAND..
case_of() {
    local name=$1 status=$2 wanted=$3 said
    shift 3
    said=$(timeout 120 "$@" 2>&1; echo "status $?")
    if [ "$said" = "${wanted:+$wanted
}status $status" ]; then
        passed=$((passed + 1))
    else
        failed=$((failed + 1))
        printf 'FAILED %s\n-- wanted:\n%s\nstatus %s\n-- was:\n%s\n' "$name" "$wanted" "$status" "$said" | cut -c 1-300
    fi
}

# --- vcd_to_dump

cat >chip.vcd <<'END'
$date today $end $version $end
$comment two words $end
$timescale 1ps $end
$scope module tb $end
$var wire 1 ! clk $end
$scope module dut $end
$var wire 1 ! clk $end
$var reg 8 " count [7:0] $end
$var reg 4 # up [0:3] $end
$var reg 4 $ high[7:4] $end
$var reg 1 % \a[1].$b $end
$var reg 1 & one [0:0] $end
$var real 64 ' speed $end
$var integer 32 ( whole $end
$scope begin gen[0] $end
$var wire 2 #5 q [1:0] $end
$upscope $end
$upscope $end
$upscope $end
$enddefinitions $end
#0
$dumpvars
0!
bx "
b0 #
bz $
x%
0&
r0.5 '
b101 (
b1z #5
$end
#5 1! b101 " 1%
#10
0! 1&
b1 #
$comment a value 1! of no meaning $end
#15
1!
b1100 $
b11 #5
0%
#20
0!
#25
1!
END
case_of 'samples before the edge, vectors by bit, names with [ . and $' 0 'srdump 1
cycles 3
count[7] x00
count[6] x00
count[5] x00
count[4] x00
count[3] x00
count[2] x11
count[1] x00
count[0] x11
up[0] 000
up[1] 000
up[2] 000
up[3] 011
high[7] xx1
high[6] xx1
high[5] xx0
high[4] xx0
a[1].$b x10
one 011
one[0] 011
gen[0].q[1] 111
gen[0].q[0] xx1' vcd_to_dump chip.vcd scope=tb.dut clock=clk count up high 'a[1].$b' one 'one[0]' 'gen[0].q'
case_of 'a whole number has 32 bits' 0 'srdump 1
cycles 3
whole[2] 111
whole[31] 000' vcd_to_dump chip.vcd scope=tb.dut clock=clk 'whole[2]' 'whole[31]'
sed 's/^\$var reg 4 \$ high\[7:4\] \$end/$var reg 1 $ high [7] $end $var reg 1 $6 high [6] $end/; s/^bz \$/z$/; s/^b1100 \$/1$ 0$6/' chip.vcd >parts.vcd
case_of 'a vector whose bits are variables' 0 'srdump 1
cycles 3
high[7] xx1
high[6] xx0' vcd_to_dump parts.vcd scope=tb.dut clock=clk high
case_of 'one of them' 0 'srdump 1
cycles 3
high[6] xx0
one 011' vcd_to_dump parts.vcd scope=tb.dut clock=clk 'high[6]' one
case_of 'a bit that a vector has not' 2 'vcd_to_dump: chip.vcd has no signal tb.dut.count[8]' vcd_to_dump chip.vcd scope=tb.dut clock=clk 'count[8]'
case_of 'from, cycles, and one bit' 0 'srdump 1
cycles 1
count[2] 1' vcd_to_dump chip.vcd scope=tb.dut clock=clk from=1 cycles=1 'count[2]'
case_of 'falling edges' 0 'srdump 1
cycles 2
a[1].$b 10' vcd_to_dump chip.vcd scope=tb.dut clock=clk edge=fall 'a[1].$b'
printf 'up[3]\n\na[1].$b\n' >list
case_of 'names of a file, and no scope' 0 'srdump 1
cycles 3
tb.clk 000
up[3] 011
a[1].$b x10' bash -c 'sed "s/^\(.\)/tb.dut.\1/" list >whole; vcd_to_dump chip.vcd clock=tb.clk tb.clk names=whole | sed "s/^tb.dut.//"'
case_of 'no such file' 2 'vcd_to_dump: none.vcd cannot be read: No such file or directory' vcd_to_dump none.vcd clock=clk a
case_of 'no such signal' 2 'vcd_to_dump: chip.vcd has no signal tb.dut.none' vcd_to_dump chip.vcd scope=tb.dut clock=clk none
case_of 'no such clock' 2 'vcd_to_dump: chip.vcd has no signal tb.dut.count of one bit' vcd_to_dump chip.vcd scope=tb.dut clock=count up
case_of 'a name twice' 2 'vcd_to_dump: up[3] is named twice' vcd_to_dump chip.vcd scope=tb.dut clock=clk up 'up[3]'
case_of 'an unknown key' 2 'vcd_to_dump: there is no key form: the keys are scope, clock, edge, from, cycles, names' vcd_to_dump chip.vcd form=1 clock=clk a
case_of 'a bad number' 2 'vcd_to_dump: cycles=0: a number from 1 to 8192 is wanted' vcd_to_dump chip.vcd clock=tb.clk cycles=0 tb.clk
case_of 'a bad edge' 2 'vcd_to_dump: edge=both: rise or fall is wanted' vcd_to_dump chip.vcd clock=tb.clk edge=both tb.clk
case_of 'too few edges' 2 'vcd_to_dump: behind the first 2 edges the clock has only 1' vcd_to_dump chip.vcd clock=tb.clk from=2 cycles=2 tb.clk
case_of 'no words' 2 'vcd_to_dump: usage: vcd_to_dump WAVE.vcd scope=SCOPE clock=CLOCK [edge=fall] [from=N] [cycles=N] NAME.. >DUMP' vcd_to_dump
case_of 'no waveform' 2 'vcd_to_dump: uart.bench line 1: this is no VCD file' bash -c "cp $here/uart.bench . && vcd_to_dump uart.bench clock=clk a"
gzip -c chip.vcd >chip.vcd.gz
case_of 'a packed file' 2 'vcd_to_dump: chip.vcd.gz line 1: this is no VCD file' vcd_to_dump chip.vcd.gz clock=clk a
case_of 'a packed file through a pipe' 0 'srdump 1
cycles 3
tb.clk 000' bash -c 'vcd_to_dump <(zcat chip.vcd.gz) clock=tb.clk tb.clk'
case_of 'a head with no end' 2 'vcd_to_dump: cut.vcd line 10: the file ends before $enddefinitions' bash -c 'head -n 10 chip.vcd >cut.vcd; vcd_to_dump cut.vcd clock=tb.clk tb.clk'
case_of 'a vector that is too long' 2 'vcd_to_dump: bad.vcd line 36: b10101 is no value of 4 bits' bash -c 'sed "s/^b1 #/b10101 #/" chip.vcd >bad.vcd; vcd_to_dump bad.vcd clock=tb.clk tb.clk'
case_of 'time that goes back' 2 'vcd_to_dump: bad.vcd line 43: #2 is no time, or one that has passed' bash -c 'sed "s/^#20/#2/" chip.vcd >bad.vcd; vcd_to_dump bad.vcd clock=tb.clk tb.clk'
case_of 'a change that is none' 2 'vcd_to_dump: bad.vcd line 22: 7! is no change of a value' bash -c 'sed "22s/.*/7!/" chip.vcd >bad.vcd; vcd_to_dump bad.vcd clock=tb.clk tb.clk'
case_of 'a range that is none' 2 'vcd_to_dump: bad.vcd line 8: tb.dut.count has 8 bits and the range [6:0]' bash -c 'sed "8s/7:0/6:0/" chip.vcd >bad.vcd; vcd_to_dump bad.vcd clock=tb.clk tb.clk'

# --- names

cat >net.bench <<'END'
# names with [, . and $
INPUT( rst )
output(o)
u.q[0]  = DFF(n$1)
q$2 = dff( u.q[0] )   # a comment
n$1 = AND(rst, q$2)
o = BUFF(u.q[0])
p = BUFF(o)
i = NOT(p)
r = BUF(rst)
END
printf 'srdump 1\ncycles 2\nu.q[0] 01 # here\n\nq$2 xX\nrst 00\n' >good.dump
case_of 'flip-flops and inputs' 0 '2 of 2 flip-flops, 1 inputs, 0 others' names net.bench good.dump
printf 'srdump 1\ncycles 1\nu.q[0] 0\np 0\ni 1\nr x\nn$1 x\nzz 0\n' >odd.dump
case_of 'what is none' 1 'p: another name of the flip-flop u.q[0]
i: the inverse of the flip-flop u.q[0]
r: another name of the input rst
n$1: a gate (AND)
zz: not in the netlist
1 of 2 flip-flops, 0 inputs, 5 others' names net.bench odd.dump
printf 'a = BUFF(b)\nb = BUFF(a)\n' >ring.bench
printf 'srdump 1\ncycles 1\na 0\n' >ring.dump
case_of 'buffers in a ring' 1 'a: a gate (BUFF)
0 of 0 flip-flops, 0 inputs, 1 others' names ring.bench ring.dump
case_of 'no statement' 2 'names: bad.bench line 2: this is no statement of a netlist' bash -c 'printf "INPUT(a)\nx = vdd\n" >bad.bench; names bad.bench good.dump'
case_of 'no dump' 2 "names: net.bench line 2: a dump begins with the line 'srdump 1'" names net.bench net.bench
case_of 'a bad row' 2 'names: bad.dump line 3: a row is a name and 2 letters of 0, 1 and x' bash -c 'printf "srdump 1\ncycles 2\na 012\n" >bad.dump; names net.bench bad.dump'
case_of 'a row twice' 2 'names: bad.dump line 4: a has a row above' bash -c 'printf "srdump 1\ncycles 2\na 01\na 01\n" >bad.dump; names net.bench bad.dump'
case_of 'an empty dump' 2 'names: /dev/null line 1: the dump ends before its second line' names net.bench /dev/null

# --- table_to_vcd

printf 'srdump 1\ncycles 3\nu.q[1] 0x1\nu.q[0] 001\nu.r x10\n$n$1 111\nm[3][1] 010\nm[3][0] 0xx\nw[7] 000\n# traced 1 known 1 ratio 1.000\n' >small.table
case_of 'a table alone, names with [ . and $' 0 '$timescale 1ns $end
$scope module restored $end
$scope module u $end
$var wire 2 r0 q [1:0] $end
$var wire 1 r1 r $end
$upscope $end
$var wire 1 r2 \$n$1 $end
$var wire 2 r3 m[3] [1:0] $end
$var wire 1 r4 w[7] $end
$upscope $end
$enddefinitions $end
#0
b00 r0
xr1
1r2
b00 r3
0r4
#10
bx0 r0
1r1
b1x r3
#20
b11 r0
0r1
b0x r3
#30' table_to_vcd small.table
case_of 'gaps in a vector are x' 0 'b0x1 r0' bash -c 'printf "srdump 1\ncycles 1\na[2] 0\na[0] 1\n" >gap.table; table_to_vcd gap.table | grep r0 | tail -n 1'
printf 'srdump 1\ncycles 2\ncount[2] 10\nup[3] x1\n' >beside.table
case_of 'beside a waveform' 0 '$scope module restored $end
$var wire 1 r0 count[2] $end
$var wire 1 r1 up[3] $end
$upscope $end
$enddefinitions $end
#0 0! xr0 xr1
#5 1! 1r0 xr1
#10 0!
#15 1! 0r0 1r1
#20 0!
#25 1! xr0 xr1' bash -c 'table_to_vcd beside.table chip.vcd scope=tb.dut clock=clk from=1 |
    awk "/restored/ { on = 1 } !on { next } /^#/ { if (n++) print line; line = \$0; next } line == \"\" { print } line != \"\" && /!\$|r[0-9]\$/ { line = line \" \" \$0 } END { print line }"'
case_of 'what was put beside is read back' 0 "$(cut -d ' ' -f 2 "$here/uart.inputs.table" | sed -n '3,$p' | grep -v '^traced' | sort)" bash -c "
    sed -n '3,\$s/ .*//p' $here/uart.inputs.table | grep -v '^#' | sed 's/^/restored./' >all.names
    vcd_to_dump $here/uart.both.vcd clock=uart_tb.dut.clk names=all.names | sed -n '3,\$s/.* //p' | sort"
case_of 'another clock than the table has' 1 'table_to_vcd: the clock has 3 edges, and the table ends at edge 4' bash -c 'table_to_vcd beside.table chip.vcd clock=tb.clk from=2 >/dev/null'
case_of 'no words' 2 'table_to_vcd: usage: table_to_vcd TABLE, or table_to_vcd TABLE WAVE.vcd scope=SCOPE clock=CLOCK [edge=fall] [from=N]' table_to_vcd
case_of 'a contradiction is no table' 2 "table_to_vcd: clash line 1: a dump begins with the line 'srdump 1'" bash -c 'echo contradiction q 0 >clash; table_to_vcd clash'

# --- the flow's own files

case_of 'the restored values are those of the simulation' 0 '0 of 27672 cells differ' bash -c "
    sed -n '3,\$s/ .*//p' $here/uart.inputs.table | grep -v '^#\|slot' >seen.names
    vcd_to_dump $here/uart.vcd scope=uart_tb.dut clock=clk names=seen.names >seen.dump
    awk 'FNR < 3 || /^#/ { next } FNR == NR { row[\$1] = \$2; next } \$1 in row {
        for (c = 1; c <= length(\$2); c++) { a = substr(\$2, c, 1); b = substr(row[\$1], c, 1); if (a != \"x\" && b != \"x\") { n++; d += a != b } } }
        END { print d + 0 \" of \" n \" cells differ\" }' seen.dump $here/uart.inputs.table"
case_of 'the whole dump restores without a contradiction' 0 '' bash -c "$SRESTORE restore $here/uart.bench seen.dump >/dev/null"

# --- suspects

printf 'INPUT(a)\nINPUT(b)\nOUTPUT(q)\nn = NOT(a)\ng = AND(n, b)\nq = DFF(g)\nr[0].$ = DFF(n)\n' >worked.bench
printf 'srdump 1\ncycles 2\nq x1\nr[0].$ x0\nb 1x\n' >clash.dump
case_of 'two rows against each other' 1 'contradiction n 0
none without q
none without r[0].$
2 of 3 rows are suspects' suspects worked.bench clash.dump
case_of 'no contradiction' 0 'no contradiction' bash -c 'head -n 3 clash.dump >well.dump; suspects worked.bench well.dump'
case_of 'no row alone' 1 'contradiction m 0
0 of 4 rows are suspects: more than one row is wrong, or the netlist, or the cycles' bash -c '
    (cat worked.bench; printf "INPUT(c)\nm = NOT(c)\nv = DFF(m)\nw = DFF(m)\n") >twice.bench
    (head -n 4 clash.dump; printf "v x1\nw x0\n") >twice.dump
    suspects twice.bench twice.dump'
case_of 'through a pipe' 1 'contradiction n 0
none without q
none without r[0].$
2 of 3 rows are suspects' bash -c 'cat clash.dump | suspects worked.bench /dev/stdin'
case_of 'a dump that the program refuses' 2 'suspects: the program ends with status 4: srestore: dump line 3: 13 unknown signal' bash -c 'printf "srdump 1\ncycles 2\nz 00\n" >bad.dump; suspects worked.bench bad.dump'
case_of 'no program' 2 'suspects: /none does not run: No such file or directory' env SRESTORE=/none suspects worked.bench clash.dump

# --- verilog_to_bench, as far as it goes without its tools

case_of 'no words for a netlist' 1 'verilog_to_bench: usage: verilog_to_bench TOP NETLIST FILE..' verilog_to_bench
if command -v yosys >/dev/null; then
    cat >t.v <<'END'
module t (input c, input r, input e, input \a$b , output y, output z, output reg [3:0] \q.r , output reg p);
    assign y = 1, z = 0;
    always @(posedge c or posedge r) if (r) \q.r <= 1; else if (e) \q.r <= {\a$b , 1'b0, 1'b1, \q.r [3]};
    always @(posedge c) if (r) p <= 0; else if (e) p <= \q.r [3];
endmodule
module two (input c, input d, output reg p, output reg q);
    always @(posedge c) p <= d;
    always @(negedge c) q <= d;
endmodule
module set (input c, input s, input r, input d, output reg q);
    always @(posedge c, posedge s, posedge r) if (r) q <= 0; else if (s) q <= 1; else q <= d;
endmodule
END
    case_of 'resets, enables, constants and names' 0 'verilog_to_bench: t.bench: 5 flip-flops, 4 inputs, clock c
p q.r[0] q.r[1] q.r[2] q.r[3]
srdump 1
cycles 1
y 1
z 0' bash -c 'verilog_to_bench t t.bench t.v && sed -n "s/ *= DFF.*//p" t.bench | sort | paste -sd " " - &&
        printf "srdump 1\ncycles 1\n" | $SRESTORE restore t.bench /dev/stdin all=yes | grep "^[syz]\|^cyc"'
    case_of 'two edges of a clock' 1 'verilog_to_bench: the flip-flops have several clocks, and a netlist has one' bash -c 'verilog_to_bench two two.bench t.v 2>&1 | sed "s/ one: .*/ one/"; exit ${PIPESTATUS[0]}'
    case_of 'a set and a reset' 1 'ERROR' bash -c 'verilog_to_bench set set.bench t.v 2>&1 | grep -o ERROR; exit ${PIPESTATUS[0]}'
    case_of 'no such module' 1 'verilog_to_bench: yosys: ERROR: Module `none'"'"' not found!' verilog_to_bench none none.bench t.v
    case_of 'no such file' 1 'verilog_to_bench: none.v cannot be read' verilog_to_bench t t.bench none.v
    case_of 'no such folder' 1 'verilog_to_bench: none/t.bench cannot be written' verilog_to_bench t none/t.bench t.v
else
    case_of 'no yosys' 1 'verilog_to_bench: yosys or ABC is not installed (Debian: apt-get install yosys berkeley-abc)' verilog_to_bench t t.bench t.v
fi

# --- files of 16 MiB and twice that: twice the file takes not more than thrice the processor's time and a second

python3 - <<'END'
import random
draw = random.Random(1)
for name, most in ("one", 1 << 24), ("two", 1 << 25):
    with open(f"{name}.vcd", "w") as file:
        file.write("$scope module t $end\n$var wire 1 ! c $end\n" + "".join(f"$var reg 32 v{n} r{n} [31:0] $end\n$var reg 1 s{n} $n[{n}].x $end\n" for n in range(400)))
        size, time = file.write("$upscope $end\n$enddefinitions $end\n#0 0!\n"), 0
        while size < most:
            time += 10
            size += file.write(f"#{time}\n1!\n" + "".join(f"b{draw.getrandbits(32):b} v{n}\n{time // 10 % 2}s{n}\n" for n in range(400)) + f"#{time + 5}\n0!\n")
    row = "".join(draw.choices("01x", k=8192))
    with open(f"{name}.table", "w") as file:
        file.write("srdump 1\ncycles 8192\n" + "".join(f"u{n // 8}.r[{n % 8}] {row[n:]}{row[:n]}\n" for n in range(most // 8210)))
    with open(f"{name}.bench", "w") as file:
        file.write("".join(f"x$[{n}] = NOT(x$[{n + 1}])\n" for n in range(most // 29)))
END
milliseconds() {
    local TIMEFORMAT='%U %S' used
    used=$({ time timeout 600 "$@" >large.out 2>&1; } 2>&1) || return 1
    awk -v used="$used" 'BEGIN { split(used, part, " "); print int(1000 * (part[1] + part[2])) }'
}
linear() {
    local name=$1 one two
    shift
    if one=$(milliseconds bash -c "${1//SIZE/one}") && two=$(milliseconds bash -c "${1//SIZE/two}") && [ "$two" -le $((3 * one + 1000)) ]; then
        passed=$((passed + 1))
    else
        failed=$((failed + 1))
        echo "FAILED $name: ${one:-too many} ms, and twice the file ${two:-too many} ms"
        head -c 300 large.out
    fi
}
linear 'a large waveform' 'vcd_to_dump SIZE.vcd scope=t clock=c r7 r8 "\$n[3].x"'
linear 'a large table' 'table_to_vcd SIZE.table'
linear 'a large table beside a large waveform' 'table_to_vcd SIZE.table SIZE.vcd scope=t clock=c; [ $? -eq 1 ]'
linear 'a large netlist and dump' 'names SIZE.bench SIZE.table; [ $? -eq 1 ]'

# --- the pages

for page in "$here/README.md" "$here/../README.md" "$here/../many/README.md" "$here/../../README.md" "$here/../../docs/USING.md"; do
    if said=$("$here/../try_page" "$page"); then
        passed=$((passed + 1))
    else
        failed=$((failed + 1))
        echo "FAILED a page"
        printf '%s\n' "$said"
    fi
done

echo "$passed passed, $failed failed"
[ $failed -eq 0 ]
