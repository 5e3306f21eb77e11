#!/usr/bin/env python3
"""Writes docs/EDITS.md: for each public call of each library the must-fail edits that speak for it. An edit speaks for a call
where it changes the call's own code, code of its crate that the call goes through, or a definition that the contract of either
cites; for a call for hosts, where it speaks for a call of another crate that it passes on; and, where a call has fewer than two of
these, where it speaks for a function that calls it. Fails where fewer than two edits speak for a call. Constants and `requires`
lines are not read: an edit of one speaks for no call here. The public calls are those that determined.py counts. The calls of a
static library are not listed: each is a call of the library that it is of, passed on (determined.py holds it to that), and its
edits speak for that call as a caller's.

    python3 scripts/edits.py [--check]"""
import glob
import os
import re
from dataclasses import dataclass, field

from common import Parser, block_of, crates, fail, read, sources_of, write

TABLE = "docs/EDITS.md"
ENOUGH = 2
HOSTS = "amsulfezd"


@dataclass(eq=False)
class Function:
    """A function of src/: CRATE.NAME, CRATE.TYPE.NAME or CRATE.TRAIT for TYPE.NAME, its lines, the type or trait that it belongs to and
    the trait that an impl block of it names, the definitions that its contract cites, whom it calls."""

    name: str
    crate: str
    public: bool
    file: str
    first: int
    last: int
    text: str
    owner: str = ""
    trait: str = ""
    cited: set = field(default_factory=set)
    calls: set = field(default_factory=set)

    @property
    def short(self):
        """The name alone."""
        return self.name.split(".")[-1]

    @property
    def head(self):
        """The signature."""
        return re.split(r"\n\s*(?:requires|ensures|where)\b|;|\{", self.text)[0]

    @property
    def body(self):
        """What stands between the braces; nothing where a trait only declares it."""
        begin = re.search(r"\{\n", re.sub(r"(?m)^ *(?:requires|ensures) .*$", lambda line: " " * len(line[0]), self.text))
        return self.text[begin.end():] if begin else ""


def functions_of(crate):
    """The functions of a crate, in their order. A public call is one that determined.py counts: a `pub fn`, one that an impl of a trait
    gives, or one of a trait of the crate's own, in a file that the crate hands on."""
    found, root = [], "\n".join(read(f"crates/{crate}/src/lib.rt"))
    for path in sources_of(crate):
        module = os.path.basename(path)[:-3]
        handed_on = module == "lib" or re.search(rf"^pub (mod {module};|use {module}::)", root, re.M)
        owner, trait, of_trait, gives, lines = "", "", False, {}, read(path)
        for number, line in enumerate(lines):
            block = block_of(line)
            promise = re.fullmatch(r"    ghost (\w+)_gives = \{ (.*) \};", line)
            head = re.match(r'(\s*)(pub )?(?:pub\(crate\) )?(?:const )?(?:extern "C" )?fn (\w+)', line)
            if block:
                owner, trait = block
                gives = {}
                of_trait = trait != "" or line.startswith("pub trait ")
            elif line == "}":
                owner, trait, of_trait = "", "", False
            elif promise:
                gives[promise[1]] = f"\nensures {{ {promise[2]} }}"
            elif head:
                declared = rf"{head[1]}(?:pub )?fn .*;|\s*(?:requires|ensures) .*;"  # in a trait, without a body
                last = next(at for at in range(number, len(lines)) if lines[at] == head[1] + "}" or re.fullmatch(declared, lines[at]))
                place = f"{trait} for {owner}." if trait else f"{owner}." if owner else ""
                public = bool(handed_on and (head[2] or of_trait))
                found.append(Function(f"{crate}.{place}{head[3]}", crate, public, os.path.relpath(path, f"crates/{crate}"), number, last, "\n".join(lines[number:last + 1]) + gives.get(head[3], ""), owner, trait))
    return found


def definitions_of(crate):
    """The definitions of a crate: file, first line, name, the words of its text."""
    found = []
    for path in sorted(glob.glob(f"crates/{crate}/specs/*.antt")):
        lines = read(path)
        starts = [(at, m[1]) for at, line in enumerate(lines) if (m := re.match(r"(?:unfoldable |abbrev )?pub (?:record |data )?(\S+)(?: |$)", line)) or (m := re.match(r"(?:unfoldable |abbrev )(\S+) :", line))]
        for place, (at, name) in enumerate(starts):
            end = starts[place + 1][0] if place + 1 < len(starts) else len(lines)
            text = "\n".join(line for line in lines[at:end] if not line.lstrip().startswith("--"))
            found.append((os.path.relpath(path, f"crates/{crate}"), at, name, set(re.findall(r"[^\s(){}.,;∷]+", text))))
    return found


class Names:
    """What the names in the sources stand for: types and traits by crate and name, with their fields, and each file's imports."""

    def __init__(self, listed, functions):
        self.listed, self.functions = listed, functions
        self.declared, self.fields, self.imports = {}, {}, {}
        for crate in functions:
            for path in sources_of(crate):
                text = "\n".join(line.split("//")[0] for line in read(path))
                file = os.path.relpath(path, f"crates/{crate}")
                self.imports[crate, file] = {}
                for at, names in re.findall(r"^(?:pub(?:\(crate\))? )?use (\w+)::(?:\w+::)*(\w+|\{[^}]*\});", text, re.M):
                    for name in re.findall(r"\w+", names):
                        self.imports[crate, file][name] = at if at in listed else crate
                for name, rest in re.findall(r"^(?:pub(?:\(crate\))? )?(?:struct|enum|trait) (\w+)(.*?)^\}", re.sub(r"(?m)^((?:pub )?struct .*);$", r"\1\n}", text), re.M | re.S):
                    self.declared[crate, name] = (file, rest)
                    self.fields[crate, name] = dict(re.findall(r"^    (?:pub(?:\(crate\))? )?(\w+): (.*?),?$", rest, re.M))

    def type_of(self, crate, file, name):
        """The type or trait that a name in a file is, none where it is no type of these crates."""
        at = self.imports[crate, file].get(name, crate)
        if (at, name) in self.declared:
            return at, name
        lib = self.imports.get((at, "src/lib.rt"), {})
        return (lib[name], name) if at != crate and (lib.get(name), name) in self.declared else None

    def types_in(self, crate, file, text):
        """The types that a text of a file names."""
        return {kind for name in re.findall(r"\b[A-Z]\w*", text) if (kind := self.type_of(crate, file, name))}

    def within(self, kinds):
        """Types, with those that their values hold."""
        seen, todo = set(), list(kinds)
        while todo:
            kind = todo.pop()
            if kind not in seen:
                seen.add(kind)
                file, rest = self.declared[kind]
                todo += self.types_in(kind[0], file, rest)
        return seen

    def meant(self, f, word):
        """The type that a word of a function is: `Self` the one that the function belongs to, a type parameter the trait that it is of;
        the word itself where these crates have no such type."""
        bound = re.search(rf"\b{word}: ([A-Z]\w*)", f.head.split("(")[0])
        return self.type_of(f.crate, f.file, f.owner if word == "Self" else bound[1] if bound else word) or (f.owner if word == "Self" else word)

    def receiver(self, f, path):
        """The type of `self.field.`, `parameter.field.` or `Type.` in a function, and of a variable that is called as a type, as
        `refusal.`; "" where the text does not say it."""
        first, *rest = path.rstrip(".").split(".")
        parameter = re.search(rf"[(,]\s*(?:mut )?{first}: &?(?:'\w+ )?(?:mut )?(\w+)", f.head)
        word = "Self" if first == "self" else parameter[1] if parameter else "".join(part.title() for part in first.split("_"))
        kind = self.meant(f, word) if first == "self" or parameter else self.type_of(f.crate, f.file, word) or ""
        if first != "self" and not parameter and re.search(r"<\w+: ", f.head):
            return ""  # it may be of the type that is a parameter
        for word in rest:
            field_type = self.fields.get(kind, {}).get(word)
            if not field_type:
                return ""
            name = re.search(r"\w+", re.sub(r"^&(?:'\w+ )?(?:mut )?", "", field_type))[0]
            kind = self.type_of(kind[0], self.declared[kind][0], name) or name
        return kind

    def held(self, f, calls):
        """The types that a function has a value of: those that it names, those that the functions that it calls take or give, and those
        within their values."""
        kinds = self.types_in(f.crate, f.file, f.head + f.body) | {self.meant(f, "Self")}
        for g in calls:
            kinds |= self.types_in(g.crate, g.file, g.head) | {self.meant(g, "Self")}
        return self.within(kinds & set(self.declared))

    def returned(self, f):
        """The types that the result of a function names."""
        return self.types_in(f.crate, f.file, f.head.partition("->")[2])

    def made(self, f):
        """The types that a conversion in a function may make: those of its result and those of the fields of what it builds."""
        kinds = self.returned(f)
        for word in re.findall(r"\b([A-Z]\w*)(?:::[A-Z]\w*)? \{", f.body):
            kind = self.meant(f, word)
            kinds |= self.types_in(kind[0], *self.declared[kind]) if kind in self.declared else set()
        return kinds


def called(f, near, names):
    """The functions of `near` that the body of a function calls: a free one by its name, of the crate that the path or an import names,
    else of its own; one of a type by type and name, `Type::name`; one by `.name(`, of the type that stands before it, and where
    the text does not say that type, of each that the function has a value of; a conversion by `Type::from`, `.into()` or `?`, where it
    has values of the one type and may make the other; and the `next` of a type over whose values a `for` goes."""
    body, imports = f.body, names.imports[f.crate, f.file]
    plain = set()
    for path, name in re.findall(r"(?<![\w:])(?:(?<=\.\.)|(?<!\.))((?:[a-z_]\w*::)*)([a-z_]\w*)\(", body):
        first = path.split("::")[0] if path else imports.get(name)
        plain.add((first if first in names.listed else f.crate, name))
    typed = {(names.meant(f, word), name) for word, name in re.findall(r"\b([A-Z]\w*|u8|u16|u32|u64|usize|bool)(?:::<[^>]*>)?::([a-z]\w*)", body)}
    given = re.sub(r"\b([A-Z]\w*)::\w+(?:\([^()]*\))?\.(?=\w+\()", r"\1.", body)  # what a call of a type gives is of that type
    methods = {(names.receiver(f, path) if path else "", name) for path, name in re.findall(r"((?<![\w.)?])(?:\w+\.)+|(?<=\.))(\w+)(?:::<[^>]*>)?\(", given)}
    made, returned = names.made(f), names.returned(f)
    hit, before = set(), None
    while before != hit:
        before, held = set(hit), names.held(f, hit)
        for g in near:
            kind = names.meant(g, "Self")
            kinds = {kind, names.meant(g, g.trait)} if re.fullmatch(r"\w+", g.trait) else {kind}
            source = re.fullmatch(r"(?:Try)?From<(.*)>", g.trait)
            by_type = any((at, g.short) in typed for at in kinds)
            if not g.owner:
                called_here = (g.crate, g.short) in plain
            elif source:
                into = any(name == "into" for _, name in methods) and (kind in made or kind not in names.declared)
                called_here = names.types_in(g.crate, g.file, source[1]) <= held and (by_type or into or "?" in body and kind in returned)
            else:
                called_here = by_type or any(name == g.short and (at in kinds if at else kinds & held) for at, name in methods)
                called_here = called_here or g.trait == "Iterator" and kind in held and re.search(r"\bfor .* in ", body)
            hit |= {g} if called_here else set()
    return hit - {f}


def connect(listed, functions, definitions):
    """Whom each function calls, and which definitions its contract cites; a definition that no contract cites counts to those
    that name it."""
    cited, meaning = {}, Names(listed, functions)
    for crate, found in functions.items():
        names = {name for _, _, name, _ in definitions[crate]}
        near = found + [g for other in listed[crate].reads if other in functions for g in functions[other] if g.public]
        for f in found:
            contract = " ".join(re.findall(r"ensures (?:\w+ )?\{(.*)\}", f.text))
            f.cited = names & set(re.findall(r"[^\s(){}.,;]+", contract))
            f.calls = {g.name for g in called(f, near, meaning)}
        cited[crate] = {name for f in found for name in f.cited}
    for crate, found in functions.items():
        texts = {name: words for _, _, name, words in definitions[crate]}
        for f in found:
            todo = list(f.cited)
            while todo:
                for other in texts.get(todo.pop(), set()) & set(texts):
                    if other not in cited[crate] and other not in f.cited:
                        f.cited.add(other)
                        todo.append(other)


def touched(crate, edit, functions, definitions):
    """What an edit changes: functions and definitions of its crate, by name."""
    file, found = "", set()
    for line in read(edit):
        if line.startswith("file: "):
            file = line[6:].strip()
        elif line.startswith("old: "):
            lines = read(f"crates/{crate}/{file}")
            for at in (number for number, text in enumerate(lines) if line[5:] in text):
                found |= {f.name for f in functions if f.file == file and f.first <= at <= f.last}
                before = [d for d in definitions if d[0] == file and d[1] <= at]
                found |= {before[-1][2]} if before else set()
    return found


def own(f, by_name, edits):
    """The edits that speak for a function by its own code, its definitions and those of the functions of its crate that it calls."""
    seen, todo = set(), [f]
    spoken = []
    while todo:
        g = todo.pop()
        if g.name in seen:
            continue
        seen.add(g.name)
        spoken += [name for name, (crate, changed) in edits.items() if crate == g.crate and changed & (g.cited | {g.name})]
        todo += [by_name[name] for name in g.calls if by_name[name].crate == f.crate]
    return sorted(set(spoken))


def passed_on(f, by_name):
    """The calls of other crates that a call for hosts makes: it rearranges what they take and give."""
    return [by_name[name] for name in sorted(f.calls) if by_name[name].crate != f.crate] if f.crate == HOSTS else []


def callers_of(f, by_name):
    """The functions that call a function, and where such a one is not public, those that call it."""
    found, todo = set(), [f.name]
    while todo:
        name = todo.pop()
        for g in by_name.values():
            if name in g.calls and g.name not in found:
                found.add(g.name)
                todo += [] if g.public else [g.name]
    return [by_name[name] for name in found]


def rows(listed):
    """Each public call with the edits that speak for it, by itself and by its callers."""
    libraries = [crate for crate in listed if os.path.exists(f"crates/{crate}/src/lib.rt")]
    functions = {crate: functions_of(crate) for crate in libraries}
    definitions = {crate: definitions_of(crate) for crate in libraries}
    connect(listed, functions, definitions)
    by_name = {f.name: f for found in functions.values() for f in found}
    edits = {}
    for crate in libraries:
        for edit in sorted(glob.glob(f"crates/{crate}/must-fail/*.edit")):
            name = f"{crate}/{os.path.basename(edit)[:-5]}"
            edits[name] = (crate, touched(crate, edit, functions[crate], definitions[crate]))
    for f in by_name.values():
        if f.public and not listed[f.crate].is_static:
            mine = sorted({name for g in [f] + passed_on(f, by_name) for name in own(g, by_name, edits)})
            callers = sorted({name for g in callers_of(f, by_name) for name in own(g, by_name, edits)} - set(mine))
            yield f, mine, callers if len(mine) < ENOUGH else []


def main():
    parser = Parser(prog="edits.py", description="Writes docs/EDITS.md, and fails where fewer than two edits speak for a call.")
    parser.add_argument("--check", action="store_true", help="write nothing; fail if the table is stale")
    given = parser.parse_args()
    text = [
        "# Which must-fail edit speaks for which call",
        "",
        "Made by `python3 scripts/edits.py`; do not edit it. An edit of the second column changes the call's own code, code of its crate",
        "that it goes through, or a definition that a contract of these cites; for a call for hosts the second column has those of the calls",
        "of other crates that it passes on, too. Where there are fewer than two, the third has those of the functions that call it.",
        "",
        "| Call | Edits of its own | Edits of its callers |",
        "|---|---|---|",
    ]
    few = []
    for f, mine, callers in rows(crates()):
        text.append("| " + " | ".join([f"`{f.name}`", ", ".join(mine), ", ".join(callers)]) + " |")
        if len(mine) + len(callers) < ENOUGH:
            few.append(f"{f.name}: fewer than {ENOUGH} must-fail edits speak for it")
    if few:
        fail(*few)
    made = "\n".join(text) + "\n"
    if given.check:
        if not os.path.exists(TABLE) or "\n".join(read(TABLE)) + "\n" != made:
            fail(f"{TABLE} is not what the edits say: run 'python3 scripts/edits.py'")
        return
    write(TABLE, made)


main()
