"""Runs examples/from-tools/flow.sh with the programs that the gate has just proved and built, and says what isn't as it should be.

- Tools: where one is missing, it says so at once, and ends with 69.
- Flows: of each design below, an answer, a certificate that `verify` finds valid, and a schedule that `check` passes. By the versions of
  docs/from-tools.md the least cycle time is the one that stands here.

Where Yosys, OpenSTA or the library aren't installed, the flows are left out, and a line says so.
"""
import os
import pathlib
import shutil
import subprocess
import sys
import tempfile

TOP = pathlib.Path(__file__).resolve().parent.parent
EXAMPLES = TOP / "examples/from-tools"
FLOW = EXAMPLES / "flow.sh"
MINTCX = TOP / "crates/mintcx/out/mintcx"
LIBERTY2TOML = TOP / "crates/liberty2toml/out/liberty2toml"
LIBRARY = pathlib.Path("/usr/share/qflow/tech/osu035/osu035_stdcells.lib")
TOOLS = ("yosys", "sta")
WRITTEN = {
    "netlist.v", "delays.sdf", "cells.toml", "clock.toml", "mintc.toml", "certificate", "least.text", "report.text", "verdict.text",
    "least.schedule", "least.svg",
}
# The source, its top, and the first words of the answer.
DESIGNS = [
    ("conversion/source.v", "digest", "least  cycle 6432 ps"),
    ("flops-and-latches/source.v", "accumulator", "least  cycle 1562 ps"),
]


def flow(words, **environment):
    """A run of the flow: its status, what it writes, and what it writes on standard error."""
    programs = {"MINTCX": str(MINTCX), "LIBERTY2TOML": str(LIBERTY2TOML)}
    ran = subprocess.run(["/bin/sh", FLOW, *words], env={**programs, **environment}, capture_output=True, text=True, timeout=1_800)
    return ran.returncode, ran.stdout, ran.stderr


def are_versions_of_the_page():
    """Whether Yosys and OpenSTA are those that the answers here were found with."""
    yosys = subprocess.run(["yosys", "-V"], capture_output=True, text=True).stdout
    sta = subprocess.run(["sta", "-version"], capture_output=True, text=True).stdout
    return yosys.startswith("Yosys 0.23 ") and sta.startswith("2.0.17")


def wrong_where_tools_are_missing():
    """Runs without any tool that don't say so."""
    status, output, said = flow(["missing.v", "top", "missing.lib"], PATH="")
    if (status, output) != (69, "") or not all(tool in said for tool in TOOLS):
        yield f"without tools: {status}, {output[:99]}, {said[:99]}"


def wrong_flow(source, top, answer, folder):
    """What isn't as it should be after the flow of a design."""
    status, output, said = flow([EXAMPLES / source, top, LIBRARY, folder], PATH=os.environ["PATH"])
    missing = WRITTEN - {file.name for file in folder.iterdir()}
    if status != 0 or missing:
        yield f"{source}: {status}, {said[:999]}, without {sorted(missing)}"
        return
    if (folder / "least.text").read_text() != output or not output.startswith(answer):
        yield f"{source}: {output[:99]} in place of {answer}"
    if (folder / "verdict.text").read_text().split()[0] != "valid":
        yield f"{source}: its certificate isn't valid"
    checked = subprocess.run([MINTCX, "check", "least.schedule"], cwd=folder, capture_output=True, text=True)
    if not checked.stdout.startswith("pass"):
        yield f"{source}: its schedule doesn't pass: {checked.stdout[:99]}"


def wrong_flows():
    """What isn't as it should be after the flows of all designs."""
    as_found = are_versions_of_the_page()
    for source, top, answer in DESIGNS:
        with tempfile.TemporaryDirectory() as folder:
            yield from wrong_flow(source, top, answer if as_found else "least", pathlib.Path(folder))


absent = [tool for tool in TOOLS if not shutil.which(tool)] + [str(file) for file in [LIBRARY] if not file.is_file()]
found = list(wrong_where_tools_are_missing()) + ([] if absent else list(wrong_flows()))
if found:
    sys.exit("\n".join(["these flows are other than they should be:", *found]))
if absent:
    print(f"the flow from RTL says which tools are missing; its designs are left out, as there is no {', no '.join(absent)}")
else:
    print("the flow from RTL answers, and says which tools are missing")
