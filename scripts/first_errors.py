#!/usr/bin/env python3
"""Prints, for each must-fail edit of the crates named, of all crates without names, the first error that the check gives on a
copy of the tree with that edit. The reviewer sees from it that each edit fails by a fact that no longer holds, and not by a
name that a proof file misses.

    python3 scripts/first_errors.py [CRATE | CRATE/EDIT ..]

In the copy rt begins with what checks in this checkout kept, so run 'rt check' in the crate's folder before."""
import os
import re
import shutil
import subprocess
import tempfile

from common import Parser, crates, fail, read, write


def pairs(path):
    """The edited files of an edit, each with its replacements in order."""
    file, edits, old = None, {}, None
    for line in read(path):
        if line.startswith("file: "):
            file = line[6:]
        elif line.startswith("old: "):
            old = line[5:]
        elif line.startswith("new: "):
            edits.setdefault(file, []).append((old, line[5:]))
    return edits


def copy_tree(copy):
    """Copies what a check reads."""
    try:
        os.mkdir(os.path.join(copy, ".git"))  # it is the top of a repository
        shutil.copy("crates.txt", copy)
        for name in crates():
            shutil.copytree(os.path.join("crates", name), os.path.join(copy, "crates", name), ignore=shutil.ignore_patterns("data", "out"))
    except (OSError, shutil.Error) as error:
        fail(f"the tree could not be copied (TMPDIR=folder names another place): {str(error)[:200]}")


def first_error(copy, crate, edit):
    """What the check says first of the crate with the edit, in the copy, which is as it was after it."""
    folder, before = os.path.join(copy, "crates", crate), {}
    try:
        for file, replacements in pairs(edit).items():
            path = os.path.join(folder, file)
            before[path] = text = "\n".join(read(path)) + "\n"
            for old, new in replacements:
                if text.count(old) != 1:
                    return f"'{old}' stands {text.count(old)} times in {file}"
                text = text.replace(old, new)
            write(path, text)
        shown = subprocess.run(["rt", "check"], cwd=folder, capture_output=True, text=True)
    finally:
        for path, text in before.items():
            write(path, text)
    if shown.returncode == 0:
        return "NOT REFUSED"
    lines = (shown.stdout + shown.stderr).splitlines()
    errors = [line for line in lines if re.search(r"\.(antt|rt):\d+:\d+: .*error|error:|\.rt:\d+:\d+: it is not proved", line)]
    rest = [line for line in lines if re.match(r"fn .*(not proved|no proof)", line)]
    return (errors + rest + lines + ["refused without a word"])[0].replace(copy + "/", "")


def edits_of(word):
    """The crate that a word names, and its edits, or the one that is named."""
    crate, _, one = word.partition("/")
    if crate not in crates():
        fail(f"there is no crate {crate}")
    folder = os.path.join("crates", crate, "must-fail")
    edits = sorted(os.listdir(folder)) if os.path.isdir(folder) else []
    if one and one + ".edit" not in edits:
        fail(f"{crate} has no edit {one}")
    return [(crate, os.path.join(folder, name)) for name in ([one + ".edit"] if one else edits)]


def main():
    parser = Parser(prog="first_errors.py", description="Prints the first error that each must-fail edit meets.")
    parser.add_argument("words", nargs="*", metavar="CRATE[/EDIT]", help="a crate, or one edit of it; all crates without names")
    given = parser.parse_args()
    wanted = [edit for word in given.words or list(crates()) for edit in edits_of(word)]
    if shutil.which("rt") is None:
        fail("the Rattle toolchain's command 'rt' is not on the PATH")
    with tempfile.TemporaryDirectory() as copy:
        copy_tree(copy)
        for crate, edit in wanted:
            print(f"{crate}/{os.path.basename(edit)}: {first_error(copy, crate, edit)[:300]}", flush=True)


main()
