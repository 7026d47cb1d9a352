#!/usr/bin/env bash
# Makes the netlist, the timing file, the stimulus file and the expected replies anew: from_verilog.{bench,timing,stim,replies}.
#
#     examples/from_verilog/make.sh
#
# It needs Icarus Verilog, Yosys and Python 3. The replies are those of the Verilog source. The netlist, run by Icarus Verilog too, must
# give the same; BACKSIM has no part in any of it.
set -euo pipefail
here=$(cd "$(dirname "$0")" && pwd)
tools=$(cd "$here/../.." && pwd)/backsim-tools
stem=$here/from_verilog
work=$(mktemp -d)
trap 'rm -rf "$work"' EXIT
cp "$here"/{processor.v,processor_test.v,netlist.ys} "$work/"
cd "$work"

# What the test bench drives, its clocks and all values of the source, in processor.vcd.
iverilog -g2005 -Wall -o source processor_test.v processor.v
vvp -n source >source.log 2>&1

# The netlist, its clocks, initial values and inputs, and that its gates settle before each edge.
yosys -q -s netlist.ys
"$tools" from-json processor.json "$stem.bench" "$stem.timing" --vcd processor.vcd --scope processor_test.dut
"$tools" from-vcd "$stem.bench" processor.vcd processor_test.dut -o "$stem.stim"
"$tools" settled "$stem".{bench,timing,stim}

# What the source answers, and what the netlist does.
"$tools" from-vcd "$stem.bench" processor.vcd processor_test.dut --script "$stem.script" -o "$stem.replies"
"$tools" to-verilog "$stem".{bench,timing,stim,script} -o netlist.v
iverilog -g2005 -s circuit -o netlist netlist.v
vvp -n netlist | sort -snk1,1 | cut -d' ' -f2- | diff "$stem.replies" -
echo "the source and the netlist give the same replies"
