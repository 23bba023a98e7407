#!/bin/sh
# Writes five netlists and their delays from source.v and moved.v: the design with flops, and with latches on the two
# levels of one clock and on two wires, each as it comes out of the flops and with latches moved by hand.
# Versions used: Yosys 0.23 (Debian yosys 0.23-6), OpenSTA 2.0.17 (Debian opensta 0~20191111gitc018cb2),
# library osu035 (Debian qflow-tech-osu035 1.3.17). Run it in this folder.
set -e
library=/usr/share/qflow/tech/osu035/osu035_stdcells.lib
work=$(mktemp -d)
trap 'rm -r "$work"' EXIT

# AND2X2 and INVX8 are kept for the clock: abc is told not to use them.
sed 's/^cell (AND2X2) {/& dont_use : true;/; s/^cell (INVX8) {/& dont_use : true;/' $library > "$work/gates.lib"
printf 'set_driving_cell BUFX2\nset_load 0.1\n' > "$work/constraints"

# netlist NAME SOURCE STEPS: what becomes of flops and latches is said by STEPS.
netlist() {
  cat > "$work/netlist.ys" <<YS
read_liberty -lib $library
read_verilog $2
synth -top digest
setattr -unset init w:*
$3
opt_clean
abc -liberty $work/gates.lib -constr $work/constraints -D 1000
opt_clean
write_verilog -noattr -simple-lhs $1.v
YS
  yosys -q "$work/netlist.ys"
}

# delays NAME CLOCK..
delays() {
  name=$1
  shift
  {
    printf 'read_liberty %s\nread_verilog %s.v\nlink_design digest\n' $library $name
    for clock in "$@"; do printf 'create_clock -name %s -period 10 %s\n' $clock $clock; done
    printf 'set_propagated_clock [all_clocks]\nset_input_transition 0.1 [all_inputs]\n'
    printf 'set_load 0.05 [all_outputs]\nwrite_sdf -no_timestamp %s.sdf\n' $name
  } > "$work/delays.tcl"
  sta -no_splash -exit "$work/delays.tcl"
}

# What stands for the flops, and for the inverters of the clock: those of one clock become one, which is a cell of the clock, or
# a second wire in its place.
flops='dfflegalize -cell $_DFF_P_ x -cell $_DFF_N_ x'
two_latches="$flops
techmap -map flopmap.v
opt_merge"
own_latches='techmap -map latchmap.v
opt_merge'
inverters='w:clk w:counter_clock %u %co1 t:$_NOT_ %i'
one_wire="chtype -set INVX8 $inverters"
two_wires="add -input phi2 1
select -set inverters $inverters
rename -enumerate -pattern inverter_% @inverters
chtype -set \$_BUF_ c:inverter_*
connect -port inverter_0 A phi2"

netlist flops source.v "$flops
dfflibmap -liberty $library"
netlist latches source.v "$two_latches
$one_wire"
netlist latches_two_wires source.v "$two_latches
$two_wires
connect -port inverter_1 A phi2"
netlist moved_latches moved.v "$own_latches
$one_wire"
netlist moved_two_wires moved.v "$own_latches
$two_wires"

delays flops clk
delays latches clk
delays latches_two_wires clk phi2
delays moved_latches clk
delays moved_two_wires clk phi2
