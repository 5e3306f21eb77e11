#!/usr/bin/env python3
"""Writes the tables of crates from crates.txt and the sources: docs/CRATES.md, a row of figures for each crate (functions, lines
of source, definitions, laws and proofs, must-fail edits, and how long the check takes and how much memory), which it prints
too, and the layers in README.md, between two marks.

    python3 scripts/figures.py [--check | --measure [CRATE..]]

Sizes are counted anew each time. Time and memory stay those of the last measure, which the last column names by its commit.
--check writes nothing and fails if a table is not what crates.txt and the sources say; time and memory are not compared.
--measure takes them anew, of the crates named or of all: each crate is proved from nothing in a copy of the tree, one after
the other, with what it leans on proved before and not counted. Nothing else should run on the machine meanwhile. rt begins a
check with what another checkout on the machine kept of the crate, if one did: then this fails, and says where."""
import glob
import os
import re
import shutil
import subprocess
import sys
import tempfile
import time

from common import Parser, crates, fail, read, write

TABLE, README = "docs/CRATES.md", "README.md"
BEGIN, END = "<!-- crates: made from crates.txt by make figures -->", "<!-- end -->"
HEAD = ["Layer", "Crate", "Functions", "Source", "Definitions", ".. without comments", "Laws", "Proofs", "Must-fail edits", "Seconds", "MiB", "Measured at"]
NOT_MEASURED = ["-", "-", "-"]
# What was measured at this commit was measured with the kit before this one.
OLDER = "7c9adb0"


def lines(paths):
    return [line for path in paths for line in read(path)]


# The files of crates of theorems that say what is claimed; the others are the reasons.
CLAIMS = {
    name + ".antt"
    for name in (
        "AnswersRead AnyStart Asked Claim EveryTrace Follows FromHeader HostCall Letter Lines Moves PremisesMet Question Run"
        " Silence SilentTrace Sizes Statement Table Waits"
    ).split()
}


def is_law(path, has_code):
    """Is this file of specs/ or proofs/ read by the checker alone? The others are what a reader holds beside the Rust or document
    01, or, in a crate of theorems, what is claimed."""
    name = os.path.basename(path)
    if not has_code:
        return name not in CLAIMS
    if path.endswith("station_numbers/specs/Numbers.antt"):
        return False
    return name.endswith("Laws.antt") or path.endswith("codec_slices/proofs/Parts.antt") or name in (
        "Alike.antt",
        "Arrives.antt",
        "Back.antt",
        "Built.antt",
        "Calls.antt",
        "Cycle.antt",
        "Distances.antt",
        "Examples.antt",
        "Finish.antt",
        "Finished.antt",
        "Linked.antt",
        "Loops.antt",
        "Made.antt",
        "Moves.antt",
        "Near.antt",
        "Neighbours.antt",
        "Numbers.antt",
        "Passes.antt",
        "Places.antt",
        "Reports.antt",
        "Round.antt",
        "Sets.antt",
        "Shortcut.antt",
        "Starts.antt",
        "Stores.antt",
        "Tables.antt",
        "Taken.antt",
        "Ticks.antt",
        "Traces.antt",
        "Turns.antt",
        "Waits.antt",
        "Ways.antt",
        "Weights.antt",
        "Widths.antt",
        "Worked.antt",
        "Written.antt",
    )


def sizes(crate):
    """Functions, lines of source, of definitions with and without comments (never `use` or blank lines), of laws and of the
    functions' proofs, and the number of must-fail edits. Files of specs/ whose theorems an edit would keep from being read stand in
    proofs/: they count as those of specs/ do."""
    folder = os.path.join("crates", crate)
    source = lines(sorted(glob.glob(f"{folder}/src/*.rt")))
    functions = sum(bool(re.match(r' *(pub )?(extern "C" )?fn ', line)) for line in source)
    specs = [path for part in ("specs", "proofs") for path in sorted(glob.glob(f"{folder}/{part}/*.antt")) if not path.endswith("/Lib.antt")]
    laws = [path for path in specs if is_law(path, functions > 0)]
    definitions = [line for line in lines(path for path in specs if path not in laws) if not re.match(r"use |$", line)]
    bare = [line for line in definitions if not re.match(r" *--", line)]
    proofs = lines(glob.glob(f"{folder}/proofs/*/**/*.antt", recursive=True))
    edits = glob.glob(f"{folder}/must-fail/*.edit")
    return [str(n) for n in (functions, len(source), len(definitions), len(bare), len(lines(laws)), len(proofs), len(edits))]


def stored():
    """The last measure of each crate in the table: seconds, memory, commit."""
    found = {}
    for line in lines([TABLE]) if os.path.exists(TABLE) else []:
        cells = [cell.strip() for cell in line.strip("|").split("|")]
        if len(cells) == len(HEAD) and cells[1].startswith("`"):
            found[cells[1].strip("`")] = cells[-3:]
    return found


def commit():
    """The commit that the tree is at, with a + if it has been changed since."""
    if shutil.which("git") is None:
        return "no commit"
    said = subprocess.run(["git", "describe", "--always", "--dirty=+"], capture_output=True, text=True)
    return said.stdout.strip() or "no commit"


def prove(crate, copy):
    """Proves a crate in the copy. Gives the seconds that it took and the memory of the largest process in MiB."""
    log, folder = os.path.join(copy, "said"), os.path.join(copy, "crates", crate)
    begun = time.monotonic()
    with open(log, "w", encoding="utf-8") as said:
        child = subprocess.Popen(["rt", "check"], cwd=folder, stdout=said, stderr=said)
        _, status, usage = os.wait4(child.pid, 0)
        child.returncode = os.waitstatus_to_exitcode(status)
    seconds = time.monotonic() - begun
    text = read(log)
    if child.returncode != 0 or not any(line.startswith("logic=proved ") for line in text):
        fail(f"{crate} was not proved: " + (text or ["rt said nothing"])[-1])
    kept = [line for line in text if "begins with what a check kept in" in line]
    if kept:
        fail(f"no check from nothing, since another checkout on this machine keeps proofs: {kept[0]}")
    if os.path.exists(os.path.join(folder, "src", "lib.rt")):
        # the library that the crates above read is built here, so that no check of theirs is charged with it
        subprocess.run(["rt", "lib"], cwd=folder, stdout=subprocess.DEVNULL, stderr=subprocess.DEVNULL, check=False)
    return f"{seconds:.0f}", f"{usage.ru_maxrss / 1024:.0f}"


def measure(wanted, listed):
    """Measures the crates wanted, each after those that it leans on."""
    needed = set(wanted)
    for crate in reversed(listed.values()):
        if crate.name in needed:
            needed.update(crate.reads)
    order = [crate for crate in listed if crate in needed]
    found, at = {}, commit()
    with tempfile.TemporaryDirectory() as copy:
        os.mkdir(os.path.join(copy, ".git"))  # it is the top of a repository
        for name in listed:
            shutil.copytree(os.path.join("crates", name), os.path.join(copy, "crates", name), ignore=lambda at, names: {"out"} & set(names))
        shutil.copy("crates.txt", copy)
        for crate in order:
            seconds, memory = prove(crate, copy)
            if crate in wanted:
                found[crate] = [seconds, memory, at]
                print(f"figures: {crate} proved in {seconds} s with {memory} MiB", file=sys.stderr, flush=True)
    return found


def row(cells):
    return "| " + " | ".join(cells) + " |"


def layers(listed):
    """The layer of each crate, said once for all that have it."""
    shown = [crate.layer for crate in listed.values()]
    return [layer if at == 0 or shown[at - 1] != layer else "" for at, layer in enumerate(shown)]


def table(measured, listed):
    """The text of docs/CRATES.md."""
    text = [
        "# The crates",
        "",
        "Made by `make figures` (`scripts/figures.py`) from crates.txt and the sources; do not edit it. What each crate holds:",
        "",
        row(["Layer", "Crate", "What it holds"]),
        "|---|---|---|",
    ]
    text += [row([layer, f"`{crate.name}`", crate.holds.replace("|", "\\|")]) for layer, crate in zip(layers(listed), listed.values())]
    text += [
        "",
        "## In figures",
        "",
        "Source, definitions, laws and proofs are lines. Definitions",
        "are the files of `specs/` and `proofs/` that a reader holds beside the Rust or document 01, without `use` and blank lines; laws",
        "are the other files there, which the checker reads; proofs are the folders of `proofs/`, one for a function. Seconds and MiB (of",
        "the largest process) are those of a check from nothing with what the crate leans on proved before, measured at the commit in the",
        f"last column (a + says that it was changed; {OLDER} is of the older kit of Rattle);",
        "`python3 scripts/figures.py --measure` takes them anew. `-` is not measured.",
        "",
        row(HEAD),
        "|---" * len(HEAD) + "|",
    ]
    counted = {crate: sizes(crate) for crate in listed}
    for layer, crate in zip(layers(listed), listed):
        text.append(row([layer, f"`{crate}`"] + counted[crate] + measured.get(crate, NOT_MEASURED)))
    together = [str(sum(map(int, column))) for column in zip(*counted.values())]
    return "\n".join(text + [row(["", "together"] + together + ["", "", ""])]) + "\n"


def readme(listed):
    """The text of README.md with its table of the layers made anew."""
    text = read(README)
    if text.count(BEGIN) != 1 or END not in text[text.index(BEGIN):]:
        fail(f"{README} has no place for the layers: a line '{BEGIN}' and after it a line '{END}'")
    begin = text.index(BEGIN) + 1
    end = text.index(END, begin)
    rows = [row([layer, ", ".join(f"`{crate.name}`" for crate in listed.values() if crate.layer == layer)]) for layer in layers(listed) if layer]
    made = ["", row(["Layer", "Crates"]), "|---|---|"] + rows + [""]
    return "\n".join(text[:begin] + made + text[end:]) + "\n"


def check(texts):
    """Fails with a line for each file that is not what would be written."""
    stale = []
    for path, text in texts.items():
        there, made = (read(path) if os.path.exists(path) else []), text.splitlines()
        at = next((at for at, (a, b) in enumerate(zip(there, made)) if a != b), min(len(there), len(made)))
        if there != made:
            stale.append(f"{path}:{at + 1} is not what crates.txt and the sources say: run 'make figures'")
    if stale:
        fail(*stale)


def main():
    parser = Parser(prog="figures.py", description="Writes the tables of crates in docs/CRATES.md and README.md, and prints the first.")
    which = parser.add_mutually_exclusive_group()
    which.add_argument("--check", action="store_true", help="write nothing; fail if a table is stale")
    which.add_argument("--measure", nargs="*", metavar="CRATE", help="measure time and memory of these crates, of all without names")
    given = parser.parse_args()
    listed = crates()
    measured = stored()
    texts = {TABLE: table(measured, listed), README: readme(listed)}
    if given.check:
        check(texts)
        return
    if given.measure is not None:
        for crate in given.measure:
            if crate not in listed:
                fail(f"there is no crate {crate}")
        if shutil.which("rt") is None:
            fail("the Rattle toolchain's command 'rt' is not on the PATH")
        measured.update(measure(given.measure or list(listed), listed))
        texts[TABLE] = table(measured, listed)
    for path, text in texts.items():
        write(path, text)
    print(texts[TABLE], end="")


main()
