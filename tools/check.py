#!/usr/bin/env python3
"""Checks what stands beside the crates. `.ci/run` calls it once `rt ci` has passed.

usage: check.py [--no-program] [--write]

- The tools' own tests (test_tools.py), and the statuses of ./scr.
- Each examples/NAME.scr gives examples/NAME.history by the built program, and each form that isn't run yet its refusal.
- docs/pictures/NAME.svg is the picture of that history.
- What the documents quote stands in these files, each link leads somewhere, each crate is in README.md and has its own,
  and each name of code that README.md, a crate's README or a page on the code marks as such stands in the crates.

--no-program leaves out what needs the built program; --write writes histories and pictures anew. The status is 1 where
something differs. Python 3.8 or later, its standard library alone.
"""
import io
import os
import re
import subprocess
import sys
import unittest
from pathlib import Path

sys.dont_write_bytecode = True
TOP = Path(__file__).resolve().parent.parent
sys.path.insert(0, str(TOP / "tools"))

import explain
import history
import timeline

PROGRAM = TOP / "crates/scr_replay/out/scr_replay"
PICTURES = TOP / "docs/pictures"
README_LIMIT = 9216

# A script that isn't run yet for one reason, and the line that explain.py names for it.
RUN = "run 0\nrank 0 start a ckpt\nrank 0 complete valid\nstop 0 end\n"
UNBUILT = [
    ("site 2 1 0\nrun 0,1\nstop 0 end\n", 0), ("site 2 1 0\nset scheme partner\nrun 0,1\nstop 0 end\n", 2),
    ("site 2 1 0\nset scheme single\nrun 1,0\nstop 0 end\n", 3), ("site 1 1 0\nset scheme single\nrun 0\nstop 1 end\n", 4),
    ("site 1 1 0\nset scheme single\nrun 0\nstop 0 after 9\n", 4), ("site 1 1 0\nset scheme single\nrun 0\nstop 0 on found |\n", 4),
    ("site 1 1 0\nset scheme single\nlose 0\n", 3), ("site 1 1 0\nset scheme single\nscavenge\n", 3),
    ("site 1 1 0\nset scheme single\nindex list\n", 3), ("site 1 2 0\nset scheme single\nrun 0\nrank 1 restarted invalid\nstop 0 end\n", 4),
    ("site 1 1 0\nset scheme single\nrun 0\nrank 0 start a output\nstop 0 end\n", 4),
    ("site 1 1 0\nset scheme single\n" + 2 * RUN, 8), ("site 1 1 0\nset scheme single\nset cache 2\nset flush 2\n" + 2 * RUN, 10),
]

faults = []


def fault(text):
    faults.append(text)
    print(f"house: {text}")


def examples():
    return sorted((TOP / "examples").glob("*.scr"))


def ran(script):
    """What the built program prints for a script, and its status."""
    done = subprocess.run([str(PROGRAM), "run"], input=script, stdout=subprocess.PIPE, timeout=120)
    return done.stdout, done.returncode


def stored(path, text, write):
    """Compares a file with what it is to hold, or writes it."""
    if write:
        path.parent.mkdir(exist_ok=True)
        path.write_bytes(text)
    elif not path.is_file():
        fault(f"{path.relative_to(TOP)} is missing")
    elif path.read_bytes() != text:
        fault(f"{path.relative_to(TOP)} differs from what comes out now (tools/check.py --write writes it anew)")


def check_program(write):
    if not PROGRAM.is_file():
        return fault("the program is not built here: .ci/run builds it, and ./scr replay; or leave it out by --no-program")
    for script in examples():
        text, status = ran(script.read_bytes())
        stored(script.with_suffix(".history"), text, write)
        if status:
            fault(f"{script.name} ends with status {status}")
    for script, line in UNBUILT:
        if ran(script.encode()) != (b"refused line 0 reason 15\n", 2):
            fault(f"explain.py says that this isn't run yet, and the program doesn't: {script!r}")
        if [at for at, _ in explain.unbuilt(script.split("\n"))] != [line]:
            fault(f"explain.py doesn't say that line {line} alone keeps this from being run: {script!r}")


def check_pictures(write):
    wanted = set()
    for script in examples():
        told, picture = script.with_suffix(".history"), PICTURES / f"{script.stem}.svg"
        wanted.add(picture)
        if not told.is_file():
            fault(f"{told.relative_to(TOP)} is missing")
        else:
            stored(picture, timeline.Picture(history.read(told.read_text())).text().encode(), write)
        if explain.unbuilt(script.read_text().split("\n")):
            fault(f"explain.py says that {script.name} isn't run yet, and it is")
    for picture in set(PICTURES.glob("*")) - wanted:
        fault(f"{picture.relative_to(TOP)} is the picture of no example")


def documents():
    return [TOP / "README.md", *sorted((TOP / "docs").glob("*.md")), *sorted((TOP / "crates").glob("*/README.md"))]


def check_quotes():
    """Behind a line `<!-- from FILE A-B -->` stand these lines of the file, and in a table behind `<!-- from FILE.. -->` each code word in the first two columns is a line of one of the files."""
    count = 0
    for path in documents():
        text, name = path.read_text(), path.relative_to(TOP)
        for files, first, last, block in re.findall(r"<!-- from (\S+) (\d+)-(\d+) -->\n+```\n(.*?)```", text, re.S):
            count += 1
            if (TOP / files).read_text().split("\n")[int(first) - 1 : int(last)] != block.split("\n")[:-1]:
                fault(f"{name} quotes {files} {first}-{last}, and something else stands there")
        for files, table in re.findall(r"<!-- from ([^>]*[a-z]) -->\n+((?:\|.*\n)+)", text):
            count += 1
            lines = {line for file in files.split() for line in (TOP / file).read_text().split("\n")}
            for row in table.split("\n")[2:]:
                for word in re.findall(r"`([^`]*)`", "|".join(re.split(r"(?<!\\)\|", row)[1:3])):
                    if word.replace("\\|", "|") not in lines:
                        fault(f"{name} quotes `{word}`, which is no line of {files}")
        if len(re.findall("<!-- from ", text)) != len(re.findall(r"<!-- from (?:\S+ \d+-\d+ -->\n+```\n|[^>]*[a-z] -->\n+\|)", text)):
            fault(f"{name} has a quote mark that isn't followed by a block or a table")
    return count


def marks_of(path):
    """The headings of a document, as links name them."""
    return {re.sub(r"[^a-z0-9 -]", "", head.lower()).replace(" ", "-") for head in re.findall(r"^#+ (.*)$", path.read_text(), re.M)}


def check_documents():
    for path in documents():
        for link, mark in re.findall(r"\]\(([^)#\s]*)#?([^)\s]*)\)", path.read_text()):
            to = path.parent / link if link else path
            if "://" not in link and not to.exists():
                fault(f"{path.relative_to(TOP)} links to {link}, which isn't there")
            elif mark and mark not in marks_of(to):
                fault(f"{path.relative_to(TOP)} links to #{mark}, which {link or 'it'} doesn't have")
    readme = (TOP / "README.md").read_text()
    if len(readme.encode()) > README_LIMIT:
        fault(f"README.md has {len(readme.encode())} bytes, of {README_LIMIT} at most")
    crates = [line.split(":")[0].split()[0] for line in (TOP / "crates.txt").read_text().split("\n") if ":" in line.split("#")[0]]
    for crate in crates:
        if f"`{crate}`" not in readme:
            fault(f"README.md doesn't name {crate}")
        if not (TOP / f"crates/{crate}/README.md").is_file():
            fault(f"crates/{crate}/README.md is missing")
    return len(crates)


def check_names():
    """Each word marked as code that looks like a name of code stands in the sources, and each source that is named is there."""
    sources = [path for path in (TOP / "crates").glob("*/*/**/*") if path.suffix in (".rt", ".antt") and path.parts[len(TOP.parts) + 2] != "out"]
    words = set(re.findall(r"[A-Za-z_]\w*", "\n".join(path.read_text() for path in sources)))
    words |= {part for path in sources for part in (path.stem, path.name, *path.relative_to(TOP).parts)}
    about_code = [path for path in documents() if path.parent.name != "docs" or path.stem in ("PROMISES", "ARCHITECTURE", "DEFINITIONS", "GLOSSARY")]
    for path in about_code:
        for name in re.findall(r"`([^`\n]+)`", re.sub(r"```.*?```", "", path.read_text(), flags=re.S)):
            if "/" in name and (TOP / name).exists():
                continue
            if re.fullmatch(r"\w+((::|\.|/)\w+)*", name) and not re.match(r"\d|set$|d\.", name):
                lost = [it for it in re.split(r"::|\.|/", name) if it not in words and it not in ("rt", "antt", "txt", "docs")]
                if lost:
                    fault(f"{path.relative_to(TOP)} speaks of `{name}`, and crates/ has no {lost[0]}")


def main(words):
    if set(words) - {"--no-program", "--write"}:
        print(__doc__.strip(), file=sys.stderr)
        return 64
    if "--no-program" not in words:
        check_program("--write" in words)
    check_pictures("--write" in words)
    quotes, crates = check_quotes(), check_documents()
    check_names()
    tests = unittest.defaultTestLoader.loadTestsFromName("test_tools")
    said = io.StringIO()
    if not unittest.TextTestRunner(stream=said, verbosity=0).run(tests).wasSuccessful():
        fault(f"the tools' own tests:\n{said.getvalue()}")
    by = "as stored" if "--no-program" in words else "as stored and as the built program gives them"
    if not faults:
        print(f"house: {len(examples())} histories and their pictures {by}, {quotes} quotes, {crates} crates with their READMEs, {tests.countTestCases()} tests of the tools")
    return 1 if faults else 0


if __name__ == "__main__":
    os.chdir(TOP)
    sys.exit(main(sys.argv[1:]))
