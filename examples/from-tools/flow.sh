#!/bin/sh
# Goes from a Verilog source to its least cycle time by the tools of docs/from-tools.md:
#
#     flow.sh RTL TOP LIB [FOLDER]
#
# RTL is the source, TOP its top module, LIB the Liberty file of the cells. What comes of it is left in FOLDER, or in TOP.flow:
#
#     netlist.v, delays.sdf, cells.toml, clock.toml    the design, and mintc.toml, which names these four to mintcx
#     least.text, report.text, least.schedule, least.svg  what mintcx answers
#     certificate, verdict.text                        the proof of the least cycle time, and what `verify` says of it
#     synthesis.ys, delays.tcl                         what the tools were told, and their .log; answers.log, what mintcx said again
#
# Four files are taken from beside RTL where they are there:
#
#     latchmap.v     what stands for latches, as Yosys maps them
#     cells.toml     cells described by hand, as [cell.NAME]; all others come from LIB. abc uses none of the kind "clock"
#     clock.toml     the clock. Where it isn't there, one port with both levels is described, and no data port is timed
#     constraints    what abc assumes round the design
#
# It ends with the status of mintcx; with 64 where the words are wrong, 66 where a file isn't there, 69 where a tool isn't,
# and 70 where a tool gave no answer.

say() { echo "flow.sh: $*" >&2; }

if [ $# -lt 3 ] || [ $# -gt 4 ]; then
    echo "usage: flow.sh RTL TOP LIB [FOLDER]" >&2
    exit 64
fi

# The tools first, before any of them works for long. MINTCX and LIBERTY2TOML name the programs where they aren't the scripts at the top.
here=${0%/*}
[ "$here" != "$0" ] || here=.
mintcx=${MINTCX:-$here/../../mintcx}
liberty2toml=${LIBERTY2TOML:-$here/../../liberty2toml}
missing=
for tool in yosys sta awk sed "$mintcx" "$liberty2toml"; do
    command -v "$tool" >/dev/null || missing="$missing $tool"
done
if [ -n "$missing" ]; then
    say "these tools aren't there:$missing (docs/from-tools.md says where they come from)"
    exit 69
fi

# The path of a file from the root, as the tools work in FOLDER.
from_root() { echo "$(cd "$(dirname "$1")" && pwd)/$(basename "$1")"; }

for file in "$1" "$3"; do
    if [ ! -r "$file" ] || [ -d "$file" ]; then
        say "no file $file"
        exit 66
    fi
done
rtl=$(from_root "$1") top=$2 library=$(from_root "$3")
beside=$(dirname "$rtl")
mintcx=$(from_root "$(command -v "$mintcx")") liberty2toml=$(from_root "$(command -v "$liberty2toml")")
folder=${4:-$top.flow}
mkdir -p "$folder" && cd "$folder" || exit 66
if [ "$(pwd)" = "$beside" ]; then
    say "the folder of RTL is to stay as it is: name another one"
    exit 64
fi

# The cells: those of the library, but for those that are described by hand.
own=/dev/null
[ ! -r "$beside/cells.toml" ] || own=$beside/cells.toml
"$liberty2toml" "$library" >library.toml || exit
awk 'FILENAME == ARGV[1] { if (/^\[cell\./) own[$1] = 1; next }
     /^\[cell\./ { left_out = $1 in own }
     !left_out' "$own" library.toml | cat - "$own" >cells.toml
rm library.toml

# The library for abc, without the cells of the clock.
cp "$library" gates.lib || exit 66
for cell in $(awk '/^\[cell\./ { name = $1; gsub(/^\[cell\.|\]$|"/, "", name) } /^kind *= *"clock"/ { print name }' "$own"); do
    sed "s/^[[:blank:]]*cell[[:blank:]]*([[:blank:]]*\"\{0,1\}$cell\"\{0,1\}[[:blank:]]*)[[:blank:]]*{/& dont_use : true;/" \
        gates.lib >gates.kept && mv gates.kept gates.lib
done

# What drives the inputs: the first buffer of the library, which is a cell whose output is its input.
if [ -r "$beside/constraints" ]; then
    cp "$beside/constraints" constraints
else
    awk '
        /^[ \t]*cell[ \t]*\(/ { name = $0; gsub(/^[^(]*\([ \t]*"?|"?[ \t]*\).*$/, "", name); holds = 0 }
        /^[ \t]*(ff|latch|statetable)[ \t]*\(/ || /three_state/ { holds = 1 }
        /^[ \t]*function[ \t]*:[ \t]*"[ \t(]*[A-Za-z0-9_]+[ \t)]*"/ && !holds { print "set_driving_cell", name; exit }
    ' "$library" >constraints
    echo "set_load 0.1" >>constraints
fi

# The netlist. After it, what is left of Yosys's own cells goes to a file, and so do the input ports that lead to clock pins.
map=
[ ! -r "$beside/latchmap.v" ] || map="techmap -map \"$beside/latchmap.v\""
cat >synthesis.ys <<YS
read_liberty -lib "$library"
read_verilog "$rtl"
synth -top $top
setattr -unset init w:*
design -save synthesised
dfflibmap -liberty "$library"
$map
abc -liberty gates.lib -constr constraints -D 1000
opt_clean
write_verilog -noattr -simple-lhs netlist.v
select -write unmapped t:\$_*
design -load synthesised
flatten
opt_clean
select -write clock.ports t:\$_*DFF* %ci1:+[C] t:\$_DLATCH* %ci1:+[E] %u i:* %i
YS
rm -f netlist.v delays.sdf
if ! yosys -q -l synthesis.log synthesis.ys >&2; then
    say "Yosys wrote no netlist"
    exit 70
fi
if [ -s unmapped ]; then
    say "no cells stand for these of Yosys: write $beside/latchmap.v (docs/from-tools.md, step 1)"
    cat unmapped >&2
    exit 70
fi

# The clock: that of the source, or one port with both levels.
if [ -r "$beside/clock.toml" ]; then
    cp "$beside/clock.toml" clock.toml
else
    count=$(awk 'END { print NR }' clock.ports)
    port=$(sed 's,.*/,,' clock.ports)
    if [ "$count" != 1 ]; then
        say "$count ports lead to clock pins: write $beside/clock.toml, with a phase for each (docs/from-tools.md, step 4):" $port
        exit 70
    fi
    say "the clock is taken to be $port, and no data port is timed: clock.toml says so"
    cat >clock.toml <<TOML
# One port with two levels: low begins just where high ends, and ends before the next high begins. No data port is listed.
top = "$top"

[[phase]]
name = "high"
port = "$port"

[[phase]]
name = "low"
port = "$port"
level = "low"

[[bound]]
from = "end high"
to = "start low"
gap = 0
cycles = 0

[[bound]]
from = "start low"
to = "end high"
gap = 0
cycles = 0

[[bound]]
from = "end low"
to = "start high"
gap = 0
cycles = 1
TOML
fi

# The delays, with a clock at each port that a phase comes by.
{
    printf 'read_liberty {%s}\nread_verilog netlist.v\nlink_design {%s}\n' "$library" "$top"
    awk -F'"' '/^\[/ { phase = /^\[\[phase\]\]/ }
               phase && /^port *=/ && !($2 in seen) { seen[$2] = 1; printf "create_clock -name {%s} -period 10 {%s}\n", $2, $2 }
    ' clock.toml
    printf 'set_propagated_clock [all_clocks]\nset_input_transition 0.1 [all_inputs]\n'
    printf 'set_load 0.05 [all_outputs]\nwrite_sdf -no_timestamp delays.sdf\n'
} >delays.tcl
sta -no_splash -exit delays.tcl >delays.log 2>&1
if [ ! -s delays.sdf ]; then
    cat delays.log >&2
    say "OpenSTA wrote no delays"
    exit 70
fi

# The answers.
cat >mintc.toml <<TOML
[design]
netlist = "netlist.v"
sdf = "delays.sdf"
cells = "cells.toml"
clock = "clock.toml"
TOML
rm -f clock.ports unmapped certificate *.text least.schedule least.svg
"$mintcx" optimise -p mintc.toml --certificate certificate -o least.text
status=$?
if [ $status -le 1 ]; then
    # What `optimise` warned of, the others would say again.
    {
        "$mintcx" report -p mintc.toml -o report.text
        "$mintcx" verify certificate -p mintc.toml -o verdict.text || status=$?
        [ $status != 0 ] || "$mintcx" schedule -p mintc.toml -o least.schedule
        [ $status != 0 ] || "$mintcx" draw -p mintc.toml -o least.svg
    } 2>answers.log
    [ $status -le 1 ] || cat answers.log >&2
    cat least.text
fi
exit $status
