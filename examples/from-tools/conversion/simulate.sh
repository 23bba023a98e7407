#!/bin/sh
# Runs bench.v: the sources and the netlists side by side, by Icarus Verilog, over 20,000 cycles or as many as are asked for.
# Version used: 11.0 (Debian iverilog 11.0-1.1), models of the cells from Debian qflow-tech-osu035 1.3.17. Run it in this folder.
set -e
work=$(mktemp -d)
trap 'rm -r "$work"' EXIT

# Each gets the name of its file.
for name in source moved flops latches latches_two_wires moved_latches moved_two_wires; do
  sed "s/^module digest/module $name/" $name.v > "$work/$name.v"
done
iverilog -P bench.CYCLES="${1:-20000}" -o "$work/bench" bench.v "$work"/*.v /usr/share/qflow/tech/osu035/osu035_stdcells.v 2> "$work/warnings"
vvp "$work/bench"
