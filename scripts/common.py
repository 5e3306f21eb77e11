"""What the scripts in Python share. Importing it goes to the repository's root, as the shell scripts do."""
import argparse
import os
import re
import sys
from dataclasses import dataclass

BEGAN_IN = os.getcwd()
os.chdir(os.path.join(os.path.dirname(os.path.abspath(__file__)), ".."))


def fail(*lines):
    """Ends the script. Each line begins with the script's name."""
    me = os.path.splitext(os.path.basename(sys.argv[0]))[0]
    sys.exit("\n".join(f"{me}: {line}" for line in lines))


class Parser(argparse.ArgumentParser):
    """Answers bad usage with one line."""

    def error(self, message):
        fail(f"{message} (--help says what it takes)")


def read(path):
    """The lines of a file."""
    try:
        with open(path, encoding="utf-8") as file:
            return file.read().splitlines()
    except OSError as error:
        fail(f"{path} cannot be read: {error.strerror}")
    except UnicodeDecodeError:
        fail(f"{path} cannot be read: it is not UTF-8")


def write(path, text):
    """Writes a file, which gets its name when it is whole."""
    part = f"{path}.part-{os.getpid()}"
    try:
        with open(part, "w", encoding="utf-8") as file:
            file.write(text)
        os.replace(part, path)
    except OSError as error:
        fail(f"{path} cannot be written: {error.strerror}")
    finally:
        if os.path.exists(part):
            os.remove(part)


def block_of(line):
    """The type and the trait, "" where there is none, of a line that begins an `impl` or `trait` block; none of another line. A trait's
    own methods belong to the trait."""
    block = re.match(r"impl(?:<[^>]*(?:<[^>]*>[^>]*)*>)? (?:(.+) for )?&?(?:'\w+ )?([\w:]+)", line)
    trait = re.match(r"(?:pub )?trait (\w+)", line)
    if trait:
        return trait[1], ""
    return (block[2].split("::")[-1], block[1] or "") if block else None


def sources_of(crate):
    """The source files of a crate: lib.rt first, then its modules by name."""
    folder = os.path.join("crates", crate, "src")
    names = sorted(name for name in os.listdir(folder) if name.endswith(".rt"))
    return [os.path.join(folder, name) for name in sorted(names, key=lambda name: name != "lib.rt")]


@dataclass
class Crate:
    """A line of crates.txt: the heading that it stands under, what the line over it says, the crates that it reads, and whether it is
    a static library. Such a one is NAME_c: it gives the calls of the library NAME to C and Rust hosts, and adds nothing to them."""

    name: str
    layer: str
    holds: str
    reads: list
    is_static: bool


def crates():
    """The crates of crates.txt by name, in its order, in which a crate comes after those that it reads. Fails on a crate that
    no line describes, on a line that describes no crate, and where the order or the folders of crates/ are others."""
    found, wrong, layer, words = {}, [], "", []
    for number, line in enumerate(read("crates.txt") + [""], 1):
        here = f"crates.txt:{number}:"
        if line.startswith("# "):
            words += [line[2:].strip()] if layer else []
            continue
        crate = re.fullmatch(r"(\w+)( staticlib)?:((?: \w+)*)", line)
        if crate:
            name, reads = crate[1], crate[3].split()
            if not layer:
                wrong.append(f"{here} {name} stands under no heading")
            elif not words:
                wrong.append(f"{here} {name} has no line over it that says what it holds")
            if name in found:
                wrong.append(f"{here} {name} stands there twice")
            found[name] = Crate(name, layer, " ".join(words), reads, bool(crate[2]))
        elif words:
            wrong.append(f"{here} no crate follows '{words[-1]}'")
        if line.startswith("## "):
            layer = line[3:].strip()
        elif line and not crate:
            wrong.append(f"{here} this line is not read: {line}")
        words = []
    places = list(found)
    for crate in found.values():
        late = [name for name in crate.reads if name in found and places.index(crate.name) <= places.index(name)]
        wrong += [f"crates.txt: {crate.name} reads {name}, which does not stand above it" for name in late]
    folders = {name for name in os.listdir("crates") if os.path.isdir(os.path.join("crates", name))}
    wrong += [f"crates.txt: there is no folder crates/{name}" for name in found if name not in folders]
    wrong += [f"crates.txt: crates/{name} is not in it" for name in sorted(folders - set(found))]
    if wrong:
        fail(*wrong)
    return found
