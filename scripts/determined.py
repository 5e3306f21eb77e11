#!/usr/bin/env python3
"""Holds the claims of theorem_determined to the sources: each public call of each library crate has its contract named there,
and a claim made of it, and no other call has. Fails with a line for each call that is missing or too much. A static library
NAME_c has no claims of its own, since nothing can lean on one: instead each of its calls must be one of NAME, with the same
parameters, the same contract in the same words, and a body that is that call.

    python3 scripts/determined.py"""
import glob
import os
import re

from common import Parser, block_of, crates, fail, read, sources_of

# The calls that nothing is claimed of, each with the reason.
NOT_CLAIMED = {
    "run_replay_print.replay": "it prints; its contract fixes nothing",
    "refusals.refusal.RefusalDisplay.fmt": "it writes its sentence to any writer; no contract says whether a write succeeds",
}


def calls_of(crate):
    """The public calls of a library, as proofs name them: CRATE.CALL, CRATE.MODULE.CALL for one of a file beside lib.rt, with TYPE. before
    the call for one of an impl block, TYPETRAIT. for one that a trait names, and TRAIT. for one of a trait of the crate's own."""
    found, root = [], "\n".join(read(f"crates/{crate}/src/lib.rt"))
    for path in sources_of(crate):
        module = os.path.basename(path)[:-3]
        if module != "lib" and not re.search(rf"^pub (mod {module};|use {module}::)", root, re.M):
            continue  # the crate hands nothing of it on
        place, owner, of_trait = crate + ("" if module == "lib" else "." + module), "", False
        for line in read(path):
            block = block_of(line)
            call = re.match(r'\s*pub (?:const )?(?:extern "C" )?fn (\w+)', line)
            method = re.match(r"    (?:const )?fn (\w+)", line)
            if block:
                kind, trait = block
                owner = "".join(word[:1].upper() + word[1:] for word in [kind] + re.findall(r"\w+(?!::|\w)", trait)) + "."
                of_trait = trait != "" or line.startswith("pub trait ")
            elif line == "}":
                owner, of_trait = "", False
            elif call or method and of_trait:
                found.append(f"{place}.{owner}{(call or method)[1]}")
            elif re.search(r"\bpub\b.*\bfn\b", line.split("//")[0]) and "pub(crate)" not in line:
                fail(f"{path} has a public call in a layout that this script does not read: {line.strip()}")
    return found


def is_claim(item, contract):
    """Does this item of a specs file claim that a contract allows one result: by the word Determined, by the word DeterminedLent
    of a call that something is lent to and that leaves it, or by an equation between two that it allows?"""
    word = re.escape(contract) + r"\.Post"
    if re.fullmatch(rf"pub \S+ : DeterminedLent {word} \(λ k s\. s(?:\.1)*\.0\.now\)", item):
        return True
    spoken = re.findall(rf"(?<!\S){word}(?!\S)", item)
    return bool(re.fullmatch(rf"pub \S+ : Determined {word}", item)) or item.startswith("pub ") and len(spoken) == 2 and "≡" in item


def claims():
    """The calls whose contracts theorem_determined names, each with the file, and what is wrong there."""
    folder, named, wrong = "crates/theorem_determined/specs", {}, []
    checked = [f"{folder}/{line[8:]}.antt" for line in read(f"{folder}/Lib.antt") if line.startswith("pub mod ")]
    for path in sorted(set(glob.glob(f"{folder}/*.antt")) - {f"{folder}/Lib.antt"}):
        if path not in checked:
            wrong.append(f"{path} is not in Lib.antt, so the checker does not read it")
        # an item is a line and the lines set in under it
        text = "\n".join(line for line in read(path) if line and not line.lstrip().startswith("--"))
        items = re.split(r"\n(?=\S)", text)
        for item in items:
            use = re.fullmatch(r"use Rattle\.(\w+)\.proofs\.([\w.]+)\.Reads as (\S+)", item)
            if use:
                call, contract = f"{use[1]}.{use[2]}", use[3]
                if call in named:
                    wrong.append(f"{call} is named twice, in {named[call]} and {path}")
                if not any(is_claim(other, contract) for other in items):
                    wrong.append(f"{call} is named in {path}, and nothing is claimed of its contract")
                named[call] = path
            elif re.match(r"use .*(\bReads\b|\bspecs\.contracts\b)", item):
                wrong.append(f"{path} names a contract in a way that this script does not read: {item}")
    return named, wrong


def exported(path):
    """The public calls of a file, each with its parameters, its result and its contract, and with its body; and what a name of a
    contract stands for."""
    heads, bodies, names, call = {}, {}, {}, ""
    for line in read(path):
        use = re.match(r"ghost use ([\w.]+)\.\{(.*)\};", line)
        head = re.match(r'pub (?:extern "C" )?fn (\w+)(.*)', line)
        if use:
            for name in use[2].split(","):
                word, _, other = name.strip().partition(" as ")
                names[other or word] = f"{use[1]}.{word}"
        elif head:
            call = head[1]
            heads[call], bodies[call] = [head[2]], []
        elif line == "{" and call:
            bodies[call].append(line)
        elif line == "}":
            call = ""
        elif call:
            (bodies if bodies[call] else heads)[call].append(line.strip())
    return heads, bodies, names


def misstated(crate):
    """What is wrong with the calls of a static library."""
    library = crate.removesuffix("_c")
    theirs, their_bodies, their_names = exported(f"crates/{crate}/src/lib.rt")
    heads, _, names = exported(f"crates/{library}/src/lib.rt")
    wrong = [f"{library}.{call} is not a call of {crate}" for call in heads if call not in theirs]
    for call in theirs:
        text = " ".join(theirs[call])
        words = set(re.findall(r"[^\s(){}.,;]+", text))
        parameters = re.findall(r"(\w+): ", text.split(" ensures ")[0])
        if call not in heads:
            wrong.append(f"{crate}.{call} is no call of {library}")
        elif theirs[call] != heads[call] or any(their_names.get(word) != names.get(word) for word in words):
            wrong.append(f"{crate}.{call} has another contract than {library}.{call}")
        elif their_bodies[call][1:] != [f"{library}::{call}({', '.join(parameters)})"]:
            wrong.append(f"{crate}.{call} is more than the call of {library}")
    return wrong


def main():
    Parser(prog="determined.py", description="Fails unless theorem_determined has a claim for each public call.").parse_args()
    listed = crates().values()
    libraries = [crate.name for crate in listed if os.path.exists(f"crates/{crate.name}/src/lib.rt") and not crate.is_static]
    calls = [call for crate in libraries for call in calls_of(crate)]
    named, wrong = claims()
    wrong += [line for crate in listed if crate.is_static for line in misstated(crate.name)]
    for call in calls:
        if call not in named and call not in NOT_CLAIMED:
            wrong.append(f"{call} is a public call, and theorem_determined claims nothing of it")
    for call in named:
        if call not in calls:
            wrong.append(f"{call} is no public call, and {named[call]} names it")
        if call in NOT_CLAIMED:
            wrong.append(f"{call} is listed as not claimed, and {named[call]} names it")
    for call in NOT_CLAIMED:
        if call not in calls:
            wrong.append(f"{call} is listed as not claimed, and is no public call")
    if wrong:
        fail(*wrong)
    print(f"determined: {len(named)} public calls, a claim for each; {len(NOT_CLAIMED)} listed as not claimed")


main()
