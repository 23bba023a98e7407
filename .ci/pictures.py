"""Looks at pictures of `mintcx draw`, by the program that the gate has just proved and built, and says what isn't as it should be.

- Each SVG below examples/ and docs/, and those of 200 tables made from seeds, of their chains and of their slacks: it is XML, and nothing
  of it lies outside of its view box.
- Where xmllint is installed it reads the pictures of examples too; else a line says that it was left out.
"""
import pathlib
import random
import re
import shutil
import subprocess
import sys
import tempfile
import xml.etree.ElementTree

TOP = pathlib.Path(__file__).resolve().parent.parent
MINTCX = TOP / "crates/mintcx/out/mintcx"
SVG = "{http://www.w3.org/2000/svg}"
TABLES = 200


def path_places(steps):
    """The places of a path of whole numbers, by its letters: to a place, to a place by a line, across, down, and closed."""
    x = y = 0
    for letter, numbers in re.findall(r"([MLHVZ])([-0-9 .]*)", steps):
        values = [float(word) for word in numbers.split()]
        if letter in "ML":
            x, y = values
        elif letter == "H":
            [x] = values
        elif letter == "V":
            [y] = values
        yield x, y


def places(form):
    """The places that a form of a picture takes up; of a text that by which it stands."""
    kind = form.tag.removeprefix(SVG)
    if kind == "path":
        yield from path_places(form.get("d"))
    elif kind in ("rect", "text"):
        x, y = float(form.get("x")), float(form.get("y"))
        yield x, y
        yield x + float(form.get("width", 0)), y + float(form.get("height", 0))


def wrong_picture(what, text):
    """Says where a picture is no XML, or has something outside of its view box."""
    try:
        root = xml.etree.ElementTree.fromstring(text)
    except xml.etree.ElementTree.ParseError as error:
        yield f"{what}: {error}"
        return
    left, top, width, height = (float(word) for word in root.get("viewBox").split())
    for form in root.iter():
        for x, y in places(form):
            if not (left <= x <= left + width and top <= y <= top + height):
                yield f"{what}: {form.tag.removeprefix(SVG)} {form.attrib} lies outside"
                return


def table_of(seed):
    """A small table: latches and flops on a few phases, each of which leads to some others."""
    chosen = random.Random(seed)
    phases, elements = chosen.randint(1, 4), chosen.randint(1, 12)
    scale = 10 ** chosen.randint(0, 6)
    name = "".join(chosen.choice("ab&<>\"'") for _ in range(chosen.randint(1, 12)))
    lines = ["table 1", f"phases {phases}", *(f"phase p{n}{name}" for n in range(phases)), f"elements {elements}"]
    for n in range(elements):
        own = chosen.randint(0, 20) * scale
        hold = chosen.choice(["-", str(chosen.randint(0, 9) * scale)])
        lines.append(f"element {name}{n} {chosen.randint(1, phases)} {chosen.randint(0, 20) * scale} {hold} {own} {own} 0")
    arcs = [(n, chosen.randrange(elements)) for n in range(elements) for _ in range(chosen.randint(1, 2))]
    lines += ["inner 0", f"arcs {len(arcs)}"]
    for begin, end in arcs:
        delay = chosen.randint(0, 90) * scale
        lines.append(f"arc q{begin} d{end} {delay} {delay}")
    return "\n".join([*lines, "bounds 0", "end", ""])


def drawn(words, folder):
    """A picture, or none where nothing is drawn."""
    ran = subprocess.run([MINTCX, "draw", *words], cwd=folder, capture_output=True, timeout=60)
    if ran.returncode == 0:
        return ran.stdout
    if ran.returncode != 1:
        sys.exit(f"mintcx draw {' '.join(words)}: {ran.returncode}, {ran.stderr[:199]}")
    return None


def wrong_pictures_of_tables():
    """What is wrong of the pictures of tables made from seeds."""
    count = 0
    with tempfile.TemporaryDirectory() as folder:
        for seed in range(TABLES):
            (pathlib.Path(folder) / "made.table").write_text(table_of(seed))
            for kind in ([], ["--slack"]):
                picture = drawn([*kind, "--table", "made.table"], folder)
                if picture is not None:
                    count += 1
                    yield from wrong_picture(f"a table of seed {seed} {' '.join(kind)}", picture)
    if count < TABLES:
        yield f"of {TABLES} tables only {count} pictures were drawn"


def wrong():
    pictures = sorted([*(TOP / "examples").rglob("*.svg"), *(TOP / "docs").rglob("*.svg")])
    for picture in pictures:
        yield from wrong_picture(picture.relative_to(TOP), picture.read_bytes())
    yield from wrong_pictures_of_tables()
    if shutil.which("xmllint"):
        ran = subprocess.run(["xmllint", "--noout", "--nonet", *pictures], capture_output=True, text=True)
        if ran.returncode:
            yield ran.stderr
    else:
        print("xmllint isn't installed: left out")


found = list(wrong())
if found:
    sys.exit("\n".join(["these pictures are other than they should be:", *found]))
print("the pictures are XML, and nothing lies outside of them")
