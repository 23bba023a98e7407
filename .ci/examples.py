"""Runs the programs that the gate has just proved and built, and says what isn't as it should be. No run of mintc or liberty2toml may
write on standard error, and one of mintcx only what an example says.

- Examples: for each line `PROGRAM WORDS > ANSWER` of a file `command` below examples/, in its folder, the program writes what the file
  ANSWER has, to the byte, and ends with the status in the same line of a file `status` beside it, 0 where there is no such file. Where
  ` 2> WARNINGS` follows, mintcx writes what the file WARNINGS has on standard error.
- Plain: for each line of mintc, mintcx with the same files by options and `--format plain` writes what mintc writes and ends so.
- Tables: for each line `mintc optimise`, `mintc optimise` writes the same of the table that mintcx writes of the design; and a name that
  is longer than a table's is told.
- Objects: for each line of mintc, mintcx with `--format json` writes one line that Python reads, with the numbers of mintc.
- Statuses 2 to 7 of each program: 0 and 1 are those of examples.
- Explanations: of each refusal, mintcx writes what its section of docs/refusals.md has, to the byte.
- Pieces: a table and its answer, each longer than 131,072 bytes, by files and by pipes.
- Limits: a table with as many elements as there may be, and designs with more elements, pairs and arcs than there may be, of mintc and of
  mintc_large.
- Growths: three examples in which memory is refused at one page after the other: nothing is written then, and the status is 6.
"""
import bisect
import fractions
import json
import os
import pathlib
import re
import resource
import signal
import subprocess
import sys
import tempfile

TOP = pathlib.Path(__file__).resolve().parent.parent
MINTC = TOP / "crates/mintc/out/mintc"
MINTC_LARGE = TOP / "crates/mintc_large/out/mintc_large"
LIBERTY2TOML = TOP / "crates/liberty2toml/out/liberty2toml"
MINTCX = TOP / "crates/mintcx/out/mintcx"
PROGRAMS = {program.name: program for program in (MINTC, MINTC_LARGE, LIBERTY2TOML, MINTCX)}
USAGE = (
    b"usage: mintc check|optimise|verify|report|safe|slack table|files|liberty FILE.. | mintc sample N | mintc corners V C K D D..\n"
)


def run(program, words, folder, **how):
    """A run of a program in a folder: its status, what it writes, and what it writes on standard error."""
    how = {"stdout": subprocess.PIPE, "stderr": subprocess.PIPE, "timeout": 60, **how}
    ran = subprocess.run([program, *words], cwd=folder, **how)
    return ran.returncode, ran.stdout or b"", ran.stderr


def limited(kind, most):
    """What a child does before it becomes the program: it limits itself, and fails at the limit in place of being ended there."""
    def limit():
        signal.signal(signal.SIGXFSZ, signal.SIG_IGN)
        resource.setrlimit(kind, (most, most))
    return limit


def differences(what, ran, status, output, errors=b""):
    """Says where a run has another status or output, or writes other bytes on standard error."""
    if ran != (status, output, errors):
        yield f"{what}: {ran[0]}, {ran[1][:99]}, {ran[2][:99]} in place of {status}, {output[:99]}, {errors[:99]}"


def examples(folder):
    """The lines of the examples below a folder: what each is, its folder, its program, its words, its status, its answer and its warnings."""
    for command in sorted(folder.rglob("command")):
        folder, lines = command.parent, command.read_text().splitlines()
        stated = folder / "status"
        statuses = stated.read_text().split() if stated.is_file() else ["0"] * len(lines)
        assert len(statuses) == len(lines), f"{stated}: {len(lines)} lines are wanted"
        for line, status in zip(lines, statuses):
            words, answers = line.split(" > ")
            name, *words = words.split()
            answer, *warnings = ((folder / file).read_bytes() for file in answers.split(" 2> "))
            yield f"{folder.relative_to(TOP)}: {line}", folder, PROGRAMS[name], words, int(status), answer.decode(), b"".join(warnings)


def wrong_examples():
    """Examples with another answer or status."""
    for what, folder, program, words, status, wanted, warnings in examples(TOP / "examples"):
        yield from differences(what, run(program, words, folder), status, wanted.encode(), warnings)


def with_options(words):
    """The words of mintcx for those of mintc, which merges edges, of a design or of corners."""
    command, *rest = words
    if command == "corners":
        netlist, cells, clock, *delays = rest
        files = ["--netlist", netlist, "--cells", cells, "--clock", clock, *(word for name in delays for word in ("--sdf", name))]
        own = []
    elif rest[0] == "table":
        _, table, *own = rest
        files = ["--table", table]
    else:
        source, netlist, delays, cells, clock, *own = rest
        kind = ["--edges", "merged", "--lib"] if source == "liberty" else ["--cells"]
        files = ["--netlist", netlist, "--sdf", delays, *kind, cells, "--clock", clock]
    return [command, *own, *files, "--format", "plain"]


def other_plain_answers():
    """Examples of mintc that mintcx answers in another way, asked for mintc's own text."""
    for what, folder, program, words, *_ in examples(TOP / "examples"):
        if program == MINTC:
            status, output, _ = run(MINTC, words, folder)
            yield from differences(f"{what}, by mintcx", run(MINTCX, with_options(words), folder), status, output)


def other_tables():
    """Designs of examples whose optimum isn't that of their table, and what is said of names that no table has."""
    with tempfile.TemporaryDirectory() as name:
        table = pathlib.Path(name) / "design.table"
        for what, folder, program, words, status, answer, _ in examples(TOP / "examples"):
            if program == MINTC and words[0] == "optimise" and status < 2:
                written = run(MINTCX, ["table", *with_options(words)[1:-2], "-o", table], folder)
                yield from differences(f"{what}, its table", written, 0, b"", written[2])
                yield from differences(f"{what}, by its table", run(MINTC, ["optimise", "table", table], folder), status, answer.encode())
        files = {file: (TOP / "examples/two-by-files" / file).read_text() for file in ("two.v", "two.sdf", "two.cells", "two.clock")}
        for length, status in ((1000, 0), (1001, 1)):
            (pathlib.Path(name) / "two.v").write_text(files["two.v"].replace("l[0]", "l" * (length - len("u1."))))
            for file in ("two.sdf", "two.cells", "two.clock"):
                (pathlib.Path(name) / file).write_text(files[file])
            words = ["table", "--netlist", "two.v", "--sdf", "two.sdf", "--cells", "two.cells", "--clock", "two.clock", "-q"]
            ran = run(MINTCX, words, name)
            message = b"error: the design has no table: the name of element 0 isn't 1 to 1000 bytes from 33 to 126\n"
            yield from differences(f"a name of {length} bytes", ran, status, b"", message if status else b"")


def ratios(words):
    """The fractions among some words, as `9/2`."""
    return [fractions.Fraction(word) for word in words if re.fullmatch(r"-?\d+/\d+", word)]


def plain_numbers(text):
    """What mintc writes in numbers: its verdict, the times in their order, how many members its chain has, and what they take."""
    lines = [line.split() for line in text.splitlines()]
    if lines[0][0] in ("valid", "invalid", "pass", "fail"):
        return lines[0][0], [ratio for line in lines for ratio in ratios(line)], None
    verdict = next((line[0] for line in lines if line[0] in ("least", "never")), "least")
    den = next((int(line[1]) for line in lines if line[0] == "den"), 1)
    counted = [line for line in lines if line[0] in ("cycle", "phase", "departure")]
    times = [fractions.Fraction(word) / (1 if "/" in word else den) for line in counted for word in line[1:] if re.match(r"-?\d", word)]
    late = [ratio for line in lines if line[0] == "element" for ratio in ratios(line)]
    slacks = sorted(fractions.Fraction(line[3]) for line in lines if line[0] == "slack")
    return verdict, times + late + slacks, next((int(line[1]) for line in lines if line[0] == "chain"), None)


def object_numbers(command, found):
    """The same of an object of mintcx."""
    verdict = {"safe": "least", "slack": "least"}.get(found["answer"], found["answer"])
    own = [found["cycle"]] if "cycle" in found and command not in ("check", "verify") else []
    phases = [phase[key] for phase in found.get("phases", []) for key in ("start", "width") if command != "check"]
    elements = [element[key] for element in found.get("elements", []) for key in ("late", "early") if key in element]
    amounts = [violation["by"] for violation in found.get("violations", []) if command == "check"]
    slacks = [pair["slack"] for pair in found.get("pairs", [])]
    times = [fractions.Fraction(time, found.get("den", 1)) for time in [*own, *phases, *elements, *amounts, *slacks]]
    return verdict, times, len(found["chain"]["members"]) if "chain" in found else None


def other_objects():
    """Examples of mintc of which the object of mintcx has other numbers."""
    for what, folder, program, words, *_ in examples(TOP / "examples"):
        if program != MINTC:
            continue
        status, output, _ = run(MINTC, words, folder)
        ended, text, _ = run(MINTCX, [*with_options(words)[:-1], "json"], folder)
        found, wanted = object_numbers(words[0], json.loads(text)), plain_numbers(output.decode())
        if words[0] == "corners":
            # an object has no departures
            wanted = wanted[0], wanted[1][: len(found[1])], wanted[2]
        if (ended, found) != (status, wanted) or text.count(b"\n") != 1:
            yield f"{what}, by mintcx as an object: {ended}, {found} in place of {status}, {wanted}"


def with_pages(pages, words, folder):
    """A run that may have so many pages of memory, which the C library takes one by one."""
    most = pages * resource.getpagesize()
    return run(MINTC, words, folder, preexec_fn=limited(resource.RLIMIT_AS, most), env={"MALLOC_TOP_PAD_": "0"})


def wrong_growths():
    """Runs that write something where memory is refused, or end with another status than 6."""
    def starts(pages):
        return with_pages(pages, [], TOP)[0] == 3

    least = bisect.bisect_left(range(16_384), True, key=starts)
    for name in ("latch-ring", "flattened", "flops-and-latches"):
        what, folder, _, words, status, wanted, *_ = next(examples(TOP / "examples/from-tools" / name))
        pages = least
        while (ran := with_pages(pages, words, folder)) == (6, b"", b""):
            pages += 1
        yield from differences(f"{what}, with {pages} pages of memory", ran, status, wanted.encode())
        if pages < least + 10:
            yield f"{what}: {pages - least} pages more than none are enough"


def wrong_statuses(program, folder, words, bad, refusal, usage):
    """Statuses of a program that don't come where they should. The words have an answer; a file `bad` in place of the last one is
    refused."""
    *before, _ = words
    with tempfile.NamedTemporaryFile() as large:
        large.truncate(60_000_000)
        enough_for_words = limited(resource.RLIMIT_AS, 48_000_000)
        for what, ran, status, output in [
            ("a refused file", run(program, [*before, bad], folder), 2, refusal),
            ("no words", run(program, [], folder), 3, usage),
            ("a word too many", run(program, [*words, bad], folder), 3, usage),
            ("a missing file", run(program, [*before, "missing"], folder), 4, b""),
            ("a folder as a file", run(program, [*before, "."], folder), 4, b""),
            ("little memory", run(program, [*before, large.name], folder, preexec_fn=enough_for_words), 6, b""),
            ("a word that is no UTF-8", run(program, [*before, b"\xff"], folder), 7, b""),
        ]:
            yield from differences(f"{program.name}, {what}", ran, status, output)
    with open("/dev/full", "wb") as full:
        yield from differences(f"{program.name}, a full output", run(program, words, folder, stdout=full), 5, b"")
    reader, writer = os.pipe()
    os.close(reader)
    yield from differences(f"{program.name}, a closed output", run(program, words, folder, stdout=writer), 5, b"")
    os.close(writer)


def long_check():
    """A table, a schedule, and what `check` answers. Latch 0 leads to latch 1, 2 to 3 and so on; the way from latch n takes n
    femtoseconds more than a cycle, so that its data comes n after the phase starts."""
    names = [f"{number:080}" for number in range(2_000)]
    elements = "".join(f"element {name} 1 0 - 0 0 0\n" for name in names)
    arcs = "".join(f"arc q{n} d{n + 1} {100_000 + n} {100_000 + n}\n" for n in range(0, 2_000, 2))
    table = f"table 1\nphases 1\nphase p\nelements 2000\n{elements}inner 0\narcs 1000\n{arcs}bounds 0\nend\n"
    schedule = "schedule 1\nden 1\ncycle 100000\nphases 1\nphase 0 50000\nend\n"
    times = [number - 1 if number % 2 else 0 for number in range(2_000)]
    lines = "".join(f"element {name} late {time}/1 early {time}/1\n" for name, time in zip(names, times))
    return table.encode(), schedule.encode(), f"pass\n{lines}".encode()


def wrong_pieces():
    """Runs that read or write another text than they should, where it is longer than two pieces of 65,536 bytes."""
    table, schedule, answer = long_check()
    assert min(len(table), len(answer)) > 131_072
    with tempfile.TemporaryDirectory() as name:
        folder = pathlib.Path(name)
        (folder / "table").write_bytes(table)
        (folder / "schedule").write_bytes(schedule)
        words = ["check", "table", "table", "schedule"]
        yield from differences("a long table", run(MINTC, words, folder), 0, answer)
        piped = ["check", "table", "/dev/stdin", "schedule"]
        yield from differences("a long table by a pipe", run(MINTC, piped, folder, input=table), 0, answer)
        with open(folder / "front", "wb") as front:
            ran = run(MINTC, words, folder, stdout=front, preexec_fn=limited(resource.RLIMIT_FSIZE, 100_000))
        written = (ran[0], (folder / "front").read_bytes(), ran[2])
        yield from differences("a file that takes 100,000 bytes", written, 5, answer[:100_000])


def table_of(count, inner, arcs):
    """A table of so many latches and inner bits, with these arcs."""
    latches, lines = "element a 1 0 - 0 0 0\n" * count, "".join(f"arc {arc}\n" for arc in arcs)
    return f"table 1\nphases 1\nphase p\nelements {count}\n{latches}inner {inner}\narcs {len(arcs)}\n{lines}bounds 0\nend\n"


def ring(count):
    """A table of so many latches in a ring."""
    return table_of(count, 0, [f"q{n} d{(n + 1) % count} 50 50" for n in range(count)])


def each_to_each(count):
    """A table of so many latches, each of which leads to each by way of one inner bit."""
    return table_of(count, 1, [arc for n in range(count) for arc in (f"q{n} n0 0 0", f"n0 d{n} 0 0")])


def scopes_in_pairs(depth):
    """Modules of which each but the last stands twice in the one before; the last has a leaf `W`."""
    inner = [f"module t{n}(c); input c; t{n + 1} u (.c(c)); t{n + 1} v (.c(c)); endmodule\n" for n in range(1, depth)]
    return "".join(inner) + f"module t{depth}(c); input c; W w (); endmodule\n"


def gate(inputs, outputs):
    """The description of a gate `W` with so many pins."""
    ins, outs = [f"i{n}" for n in range(inputs)], [f"o{n}" for n in range(outputs)]
    return f'[cell.W]\nkind = "gate"\ninputs = {ins}\noutputs = {outs}\n'


def too_large(most, pairs, depth, arcs):
    """Files that are more than a program takes: with one element more than the most, with so many pairs, and with scopes of gates
    with 1,024 arcs each. The words, the files and the answer."""
    clock = '[[phase]]\nname = "p"\nport = "c"\n'
    netlist = {"v": scopes_in_pairs(depth), "d": "(DELAYFILE)\n", "c": gate(64, 16), "k": clock}
    yield ["report", "table", "t"], {"t": ring(most + 1)}, f"elements {most + 1}"
    yield ["report", "table", "t"], {"t": each_to_each(pairs)}, f"pairs {pairs * pairs}"
    yield ["report", "files", *netlist], netlist, f"arcs {arcs}"


def in_folder(program, words, files):
    """A run in a folder of its own with these texts as files."""
    with tempfile.TemporaryDirectory() as name:
        for file, text in files.items():
            (pathlib.Path(name) / file).write_text(text)
        return run(program, words, name)


def wrong_limits(program, most, *larger):
    """Runs at the limit on elements and past limits that are other than they should be."""
    table = ring(most)
    certificate = in_folder(program, ["optimise", "table", "t"], {"t": table})[1].decode()
    judged = in_folder(program, ["verify", "table", "t", "x"], {"t": table, "x": certificate})
    yield from differences(f"{program.name}, a certificate of {most} elements", judged, 0, b"valid\n")
    for words, files, count in too_large(most, *larger):
        ran = in_folder(program, words, files)
        yield from differences(f"{program.name}, {count}", ran, 2, f"refused 17 {count}\n".encode())


def said(what, ran, status, front):
    """Says where a run has another status, writes an answer, or doesn't begin so on standard error."""
    if ran[:2] != (status, b"") or not ran[2].startswith(front):
        yield f"{what}: {ran[0]}, {ran[1][:99]}, {ran[2][:99]} in place of {status}, nothing, {front}"


def wrong_statuses_of_mintcx(folder, words, bad):
    """Statuses of mintcx that don't come where they should. The words have an answer, and their last one is the name of a table; that
    of a file `bad` in its place is refused."""
    *before, _ = words
    with tempfile.NamedTemporaryFile() as large:
        large.truncate(60_000_000)
        enough_for_words = limited(resource.RLIMIT_AS, 48_000_000)
        for what, ran, status, front in [
            ("a refused file", run(MINTCX, [*before, bad], folder), 2, b"error[1]: "),
            ("no words", run(MINTCX, [], folder), 3, b""),
            ("a word too many", run(MINTCX, [*words, bad], folder), 3, b"error: unexpected argument"),
            ("no design", run(MINTCX, words[:-2], folder), 3, b"error: "),
            ("a project file that is none", run(MINTCX, [*words[:-2], "-p", bad], folder), 3, b"error: "),
            ("a missing file", run(MINTCX, [*before, "missing"], folder), 4, b"error: 'missing'"),
            ("a folder as a file", run(MINTCX, [*before, "."], folder), 4, b"error: '.'"),
            ("little memory", run(MINTCX, [*before, large.name], folder, preexec_fn=enough_for_words), 6, b""),
            ("a word that is no UTF-8", run(MINTCX, [*before, b"\xff"], folder), 7, b""),
            ("a file that can't be made", run(MINTCX, [*words, "-o", "missing/answer"], folder), 5, b"error: 'missing/answer' can't be written"),
        ]:
            yield from said(f"mintcx, {what}", ran, status, front)
    yield from differences("mintcx, a quiet run", run(MINTCX, [*words, "-q"], folder), 0, b"")
    with open("/dev/full", "wb") as full:
        yield from said("mintcx, a full output", run(MINTCX, words, folder, stdout=full), 5, b"")
    with tempfile.TemporaryDirectory() as name:
        answer = pathlib.Path(name) / "answer"
        status, output, _ = run(MINTCX, words, folder)
        yield from differences("mintcx, an answer in a file", run(MINTCX, [*words, "-o", answer], folder), status, b"")
        if answer.read_bytes() != output:
            yield f"mintcx, an answer in a file: {answer.read_bytes()[:99]} in place of {output[:99]}"


def sections(heading):
    """The sections of docs/refusals.md below a heading, by what they explain, as they are to be written."""
    page = (TOP / "docs/refusals.md").read_text()
    part = page.split(f"\n## {heading}\n", 1)[1].split("\n## ", 1)[0]
    for piece in part.split("\n### ")[1:]:
        yield piece.split(":", 1)[0], piece.rstrip("\n") + "\n"


def other_explanations():
    explained = dict(sections("Each refusal"))
    if list(explained) != [str(number) for number in range(1, 23) if number != 20]:
        yield f"docs/refusals.md explains {list(explained)}"
    for topic, text in [*explained.items(), *sections("Each warning")]:
        words = ["explain", topic]
        yield from differences(" ".join(["mintcx", *words]), run(MINTCX, words, TOP), 0, text.encode())


def wrong():
    yield from wrong_examples()
    yield from other_plain_answers()
    yield from other_tables()
    yield from other_objects()
    yield from other_explanations()
    latches, ring = TOP / "examples/two-latches", TOP / "examples/from-tools/latch-ring"
    check = ["check", "table", "two.table", "two.schedule"]
    for program in (MINTC, MINTC_LARGE):
        yield from wrong_statuses(program, latches, check, "two.table", b"refused 1 schedule 1\n", USAGE)
    yield from wrong_statuses(
        LIBERTY2TOML, ring, ["cells.lib"], "netlist.v", b"refused 1 cells 0\n", b"usage: liberty2toml FILE\n"
    )
    yield from wrong_statuses_of_mintcx(latches, ["check", "two.schedule", "--table", "two.table"], "two.schedule")
    yield from wrong_pieces()
    yield from wrong_limits(MINTC, 2_000, 448, 10, 525_310)
    yield from wrong_limits(MINTC_LARGE, 20_000, 3_163, 15, 16_809_982)
    yield from wrong_growths()


for program in PROGRAMS.values():
    if not program.is_file():
        sys.exit(f"{program} isn't there: rt ci builds it")
found = list(wrong())
if found:
    sys.exit("\n".join(["these runs are other than they should be:", *found]))
print("the examples have their answers and statuses, and the programs the statuses of faults")
