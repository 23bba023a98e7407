#!/bin/sh
# Writes netlist.v and delays.sdf from source.v.
# Versions used: Yosys 0.23 (Debian yosys 0.23-6), OpenSTA 2.0.17 (Debian opensta 0~20191111gitc018cb2),
# library osu035 (Debian qflow-tech-osu035 1.3.17). Run it in this folder.
set -e
library=/usr/share/qflow/tech/osu035/osu035_stdcells.lib
work=$(mktemp -d)
trap 'rm -r "$work"' EXIT

# AND2X2 is kept for the clock: abc is told not to use it.
sed 's/^cell (AND2X2) {/& dont_use : true;/' $library > "$work/gates.lib"
printf 'set_driving_cell BUFX2\nset_load 0.1\n' > "$work/constraints"

# The first line makes the library's pins known, for the cells that source.v names.
yosys -q -p "
  read_liberty -lib $library
  read_verilog source.v
  synth -flatten -top turn
  dfflibmap -liberty $library
  techmap -map latchmap.v
  abc -liberty $work/gates.lib -constr $work/constraints -D 1000
  opt_clean
  write_verilog -noattr -simple-lhs netlist.v"

cat > "$work/delays.tcl" <<TCL
read_liberty $library
read_verilog netlist.v
link_design turn
create_clock -name phi1 -period 10 phi1
create_clock -name phi2 -period 10 phi2
create_clock -name phi3 -period 10 phi3
set_propagated_clock [all_clocks]
set_input_transition 0.1 [all_inputs]
set_load 0.05 [all_outputs]
write_sdf -no_timestamp delays.sdf
TCL
sta -no_splash -exit "$work/delays.tcl"
