"""Has OpenSTA read the clocks that `mintcx sdc` wrote of an example, and says where it finds another least cycle time.

- At the clocks as they are written its worst slack is 0 to the femtosecond: nothing is late, and nothing has time left.
- With each edge a hundredth earlier something is late.

Where OpenSTA or the library aren't installed, this is left out, and a line says so.
"""
import pathlib
import re
import shutil
import subprocess
import sys
import tempfile

TOP = pathlib.Path(__file__).resolve().parent.parent
LIBRARY = pathlib.Path("/usr/share/qflow/tech/osu035/osu035_stdcells.lib")
# The folder below examples/from-tools, and the top module.
DESIGN = ("latch-ring", "ring")


def worst_slack(folder, top, clocks):
    """The worst slack in nanoseconds that OpenSTA tells of a design under clocks."""
    with tempfile.TemporaryDirectory() as own:
        script = pathlib.Path(own) / "slack.tcl"
        (pathlib.Path(own) / "clocks.sdc").write_text(clocks)
        script.write_text(
            f"read_liberty {LIBRARY}\nread_verilog {folder}/netlist.v\nlink_design {top}\nread_sdf {folder}/delays.sdf\n"
            f"source {own}/clocks.sdc\nreport_worst_slack -digits 6\n"
        )
        ran = subprocess.run(["sta", "-no_splash", "-exit", script], capture_output=True, text=True, timeout=60)
    found = re.search(r"^worst slack (\S+)$", ran.stdout, re.MULTILINE)
    if not found:
        sys.exit(f"OpenSTA on {folder.name}: {ran.stdout[-999:]}{ran.stderr[-999:]}")
    return float(found[1])


def sooner(clocks, factor):
    """The clocks with each of their edges at this part of its time."""
    def line(text):
        if not text.startswith("create_clock"):
            return text
        return re.sub(r"(?<=[ {])\d+(?:\.\d+)?", lambda number: f"{float(number[0]) * factor:.6f}", text)
    return "\n".join(line(text) for text in clocks.split("\n"))


def wrong():
    name, top = DESIGN
    folder = TOP / "examples/from-tools" / name
    clocks = (folder / "clocks.sdc").read_text()
    exact, early = worst_slack(folder, top, clocks), worst_slack(folder, top, sooner(clocks, 0.99))
    if exact != 0:
        yield f"{name}: a worst slack of {exact} ns at the least cycle time, in place of 0"
    if early >= 0:
        yield f"{name}: a worst slack of {early} ns with each edge a hundredth earlier"


absent = [name for name, there in (("sta", shutil.which("sta")), (str(LIBRARY), LIBRARY.is_file())) if not there]
if absent:
    print(f"OpenSTA reads no clocks, as there is no {', no '.join(absent)}")
elif found := list(wrong()):
    sys.exit("\n".join(["OpenSTA finds other than it should:", *found]))
else:
    print("OpenSTA finds slack 0 at the clocks of a least cycle time, and none with a hundredth less")
