#!/usr/bin/env python3
"""Writes docs/FUNCTIONS.md: each function of the published active.rs and parameters.rs beside its definitions, the Rattle
functions that are proved to meet them, and their contracts.

    python3 scripts/functions.py [--check] [--rust DIR]

--check writes nothing and fails if docs/FUNCTIONS.md is not what would be written. --rust names the folder of the two
published files (default: PUBLISHED_RUST from the environment, else oracle/published).

Everything is read from the sources. A definition belongs to a Rust function if the comment over it begins with the
function's name: `-- do_pass_token: ..`, `-- ParametersBuilder::slot_bits: ..`, or several names with a comma, `and` or
`with` between them. A Rattle function belongs to it if its contract cites such a definition, or if its own comment begins
with the name. A function of the Rust that has no definition must stand in NOT_TAKEN, and only such a one may."""
import os
import re
from dataclasses import dataclass, field

from common import BEGAN_IN, Parser, block_of, crates, fail, read, sources_of, write

TABLE = "docs/FUNCTIONS.md"
FILES = ("active.rs", "parameters.rs")

SHAPE = "`&mut` into an enum's field: the state is matched once, what it holds is handed to its function, and the new state is stored whole"
ASKED = "a question that no part that is taken asks"
MATCHED = "the field `connectivity_state` of `Core`, matched where it is needed (`entered_of`)"

# The functions of the Rust that have no definition, each with the reason.
NOT_TAKEN = {
    "GapState::increment_wait": "never called: `do_pass_token` counts the rotations itself",
    "ConnectivityState::is_passive": MATCHED,
    "ConnectivityState::is_online": MATCHED,
    "debug_assert_state!": "a check of debug builds: no transition is called from a state that it forbids, but for document 02's two (DIFFERENCES A11, A12)",
    "State::have_token": ASKED,
    "State::transition_offline": "never called: going offline makes a fresh station",
    "State::transition_claim_token": "the state itself, `ClaimToken true`: `handle_lost_token` enters it by `claim_token_of .. true`",
    "State::transition_await_data_response": "the state itself, `AwaitDataResponse address held`: `app_transmit_of` enters it",
    "State::transition_pass_token": "the state itself, `PassToken gap attempt`: `use_pass_of`, `status_answered`; the resends begin in it",
    "State::transition_check_token_pass": "the state itself, `CheckTokenPass attempt`: `pass_sent_on` enters it",
    "State::transition_await_status_response": "the state itself, `AwaitStatusResponse current`: `pass_poll_on` enters it",
    "State::get_listen_token_status_request": SHAPE,
    "State::get_listen_token_collision_count": SHAPE,
    "State::get_active_idle_status_request": SHAPE,
    "State::get_active_idle_new_previous_station": SHAPE,
    "State::get_active_idle_collision_count": SHAPE,
    "State::get_use_token_data": SHAPE,
    "State::get_use_token_first_cycle_done": SHAPE,
    "State::get_claim_token_first": SHAPE,
    "State::get_await_data_response_address": SHAPE,
    "State::get_await_data_response_data": SHAPE,
    "State::get_pass_token_do_gap": SHAPE,
    "State::get_pass_token_attempt": SHAPE,
    "State::get_await_status_response_address": SHAPE,
    "State::get_check_token_pass_attempt": SHAPE,
    "FdlActiveStation::parameters": ASKED,
    "FdlActiveStation::connectivity_state": MATCHED,
    "FdlActiveStation::is_in_ring": ASKED,
    "FdlActiveStation::inspect_token_ring": ASKED,
    "PollDone::with_events": "the events of a poll are fields of its answer",
    "PollResult::from": "the events of a poll are fields of its answer",
    "return_if_done!": "an early return: a definition has a case for it",
    "Parameters::debug_assert_consistency": "a check of debug builds: the check of a whole record covers it",
}

# Document 01 lists these among the names that "the printed text lacks": its own rule is the one that is built, and the
# published text is shown beside it as a difference (docs/DIFFERENCES.md).
RULE_OF_01 = {
    "UseTokenData::with_token_time",
    "State::transition_active_idle",
    "FdlActiveStation::new",
    "FdlActiveStation::connectivity_state",
    "PollDone::waiting_for_transmission",
    "PollDone::waiting_for_bus",
    "PollDone::waiting_for_delay",
    "PollDone::offline",
    "return_if_done!",
    "FdlActiveStation::wait_synchronization_pause",
    "FdlActiveStation::mark_tx",
    "FdlActiveStation::check_slot_expired",
    "FdlActiveStation::next_gap_poll",
}


@dataclass(eq=False)
class Rust:
    name: str
    file: str
    line: int


# `uses` are the names in a definition's equations, each with the crate whose specs it comes from.
@dataclass(eq=False)
class Definition:
    name: str
    crate: str
    file: str
    line: int
    comment: str
    uses: set = field(default_factory=set)


# `cites` are the names in the `ensures` lines, each with the crate whose specs it comes from.
@dataclass(eq=False)
class Function:
    name: str
    public: bool
    crate: str
    file: str
    line: int
    comment: str
    requires: list = field(default_factory=list)
    ensures: list = field(default_factory=list)
    cites: list = field(default_factory=list)


# The published Rust.


def rust_functions(folder):
    """Each function and macro of the two files, in their order, with the type of its impl block."""
    found = []
    for file in FILES:
        owner, words = "", 0
        for number, line in enumerate(read(os.path.join(folder, file)), 1):
            code = line.split("//")[0]
            block = re.match(r"impl(?:<.*?>)? (?:\S+ for )?(\w+)", code)
            if block:
                owner = block.group(1) + "::"
            elif code.startswith("}"):
                owner = ""
            words += len(re.findall(r"\bfn \w|\bmacro_rules!", code))
            function = re.match(r"\s*(?:pub(?:\(\w+\))? )?(?:const |unsafe )*fn (\w+)", code)
            macro = re.match(r"macro_rules! (\w+)", code)
            if function:
                found.append(Rust(owner + function.group(1), file, number))
            elif macro:
                found.append(Rust(macro.group(1) + "!", file, number))
        if words != sum(rust.file == file for rust in found):
            fail(f"{file} has functions in a layout that this script does not read")
    names = [rust.name for rust in found]
    for name in names:
        if names.count(name) > 1:
            fail(f"the Rust has {name} twice")
    return found


def bare(name):
    return name.split("::")[-1]


def names_at_head(comment, rust):
    """The Rust functions that a comment begins with. A name alone must be the name of one function only, and a plain word
    counts only if a comma, a colon or the end follows it."""
    full = {r.name for r in rust}
    short = {}
    for r in rust:
        short.setdefault(bare(r.name), []).append(r.name)
    named, rest = [], comment.replace("`", "")
    while True:
        word = re.match(r"[\w:]*\w!?", rest)
        if not word:
            return named
        name, after = word.group(0), rest[word.end():]
        plain = "_" not in name and "::" not in name
        if plain and after and after[0] not in ",:.":
            return named
        if name in full:
            named.append(name)
        elif len(short.get(name, [])) == 1:
            named.append(short[name][0])
        elif name in short and not plain:
            fail(f"the comment '{comment}' does not say which of {', '.join(short[name])} it means")
        else:
            return named
        between = re.match(r", and |, | and | with ", after)
        if not between:
            return named
        rest = after[between.end():]


# The Rattle sources.


def imported(line):
    """What a `use` line takes from the specs of a crate: each name with that crate."""
    use = re.match(r"(?:ghost )?use Rattle\.(\w+)\.specs\.\w+\.\{(.*)\}", line)
    if not use:
        return {}
    return {name.split(" as ")[-1].strip(): use.group(1) for name in use.group(2).split(",")}


def words_of(text):
    return re.findall(r"[^\s(){}\[\];,.«»⌜⌝]+", text)


def definitions_of(path, crate):
    """The definitions of a specs file."""
    found, comment, taken, current = [], [], {}, None
    for number, line in enumerate(read(path), 1):
        taken.update(imported(line))
        head = re.match(r"(?:unfoldable|abbrev) (?:pub )?(\S+) :", line)
        if line.startswith("--"):
            comment.append(line[2:].strip())
            continue
        if head:
            current = Definition(head.group(1), crate, path, number, " ".join(comment))
            found.append(current)
        elif re.match(r"(pub |data |record |use )", line):
            current = None
        elif current is not None:
            current.uses.update((taken.get(word, crate), word) for word in words_of(line))
        comment = []
    return found


def contract(line, word):
    """The text of a `requires` or `ensures` line, without its brackets."""
    inner = re.fullmatch(r"\s*" + word + r" (?:\w+ )?\{ (.*) \};?", line)
    if not inner:
        fail(f"this line is not read: {line.strip()}")
    return inner.group(1)


def functions_of(path, crate):
    """The functions of a source file. A method that a trait names, as `from`, has its promise in the block's own words, `from_gives`."""
    found, comment, taken, owner, gives, current = [], [], {}, "", {}, None
    for number, line in enumerate(read(path), 1):
        taken.update(imported(line))
        text = line.strip()
        head = re.match(r"(?:pub(?:\(crate\))? )?(?:const )?(?:extern \"C\" )?fn (\w+)", text)
        block = block_of(line)
        promise = re.fullmatch(r"ghost (\w+)_gives = \{ (.*) \};", text)
        if text.startswith("//"):
            comment.append(text.lstrip("/").strip())
            continue
        if block:
            kind, trait = block
            owner, gives = (f"{trait} for {kind}::" if trait else f"{kind}::"), {}
        elif line == "}":
            owner, gives = "", {}
        if promise:
            gives[promise.group(1)] = promise.group(2)
        if head:
            name, given = head.group(1), gives.get(head.group(1))
            current = Function(owner + name, text.startswith("pub "), crate, path, number, " ".join(comment))
            if given:
                current.ensures.append(given)
                current.cites.extend((taken[word], word) for word in words_of(given) if word in taken)
            found.append(current)
        elif text.startswith("requires "):
            current.requires.append(contract(line, "requires"))
        elif text.startswith("ensures "):
            ensures = contract(line, "ensures")
            current.ensures.append(ensures)
            current.cites.extend((taken[word], word) for word in words_of(ensures) if word in taken)
        if not text.startswith("#["):
            comment = []
    return found


def sources():
    """The definitions and functions of each crate that is no program, in the order of crates.txt, in which a crate comes after
    those that it reads. Each public function of such a crate has a contract. A static library says again what another library
    says, which determined.py holds it to, and is left out."""
    definitions, functions = [], []
    for crate in (crate.name for crate in crates().values() if crate.layer != "Programs" and not crate.is_static):
        specs = os.path.join("crates", crate, "specs")
        for name in sorted(os.listdir(specs)) if os.path.isdir(specs) else []:
            if name.endswith(".antt"):
                definitions.extend(definitions_of(os.path.join(specs, name), crate))
        for path in sources_of(crate):
            functions.extend(functions_of(path, crate))
    for function in functions:
        if function.public and not function.ensures:
            fail(f"the public function {function.name} ({function.file}:{function.line}) has no contract")
    return definitions, [function for function in functions if function.ensures]


# The tables.


def place(item):
    return f"`{item.name}` {item.file[len('crates/'):]}:{item.line}"


def code(text):
    return "`" + text.replace("|", "\\|") + "`"


def contract_cell(function):
    parts = ["requires " + code(text) for text in function.requires] + [code(text) for text in function.ensures]
    return "<br>".join(parts)


def rust_cell(rust):
    return f"`{rust.name}` {rust.line}" + (" (01)" if rust.name in RULE_OF_01 else "")


def row(*cells):
    return "| " + " | ".join(cells) + " |"


def rows_of(rust, definitions, by_name, functions, part_of):
    """The rows of one Rust function: one for each definition, then one for each function that only its comment names."""
    rows, shown = [], set()
    for definition in definitions:
        proved = [f for f in functions if (definition.crate, definition.name) in f.cites]
        if not proved:
            rows.append((place(definition), f"part of `{part_of(definition)}`", ""))
        for function in proved:
            shown.add(function)
            rows.append((place(definition), place(function), contract_cell(function)))
    for function in by_name:
        if function not in shown:
            rows.append(("", place(function), contract_cell(function)))
    return [row(rust_cell(rust) if i == 0 else "", *cells) for i, cells in enumerate(rows)]


def whole_of(definitions, functions):
    """Gives, for a definition that no contract cites, one that a contract cites and that is made of it; fails if none is."""
    cited = {cite for function in functions for cite in function.cites}
    users = {}
    for definition in definitions:
        for used in definition.uses:
            users.setdefault(used, []).append((definition.crate, definition.name))

    def part_of(definition):
        seen, queue = set(), [(definition.crate, definition.name)]
        while queue:
            at = queue.pop(0)
            if at in cited:
                return at[1]
            if at not in seen:
                seen.add(at)
                queue.extend(users.get(at, []))
        fail(f"no contract leans on the definition {definition.name} ({definition.file}:{definition.line})")

    return part_of


def check_taken(rust, by_rust):
    """Every function of the Rust has a definition or a reason, and none has both."""
    names = {r.name for r in rust}
    for name in RULE_OF_01 - names:
        fail(f"{name} is listed as document 01's, and the Rust has no such function")
    for name in NOT_TAKEN:
        if name not in names:
            fail(f"{name} is listed as not taken, and the Rust has no such function")
        if name in by_rust:
            first = by_rust[name][0]
            fail(f"{name} is listed as not taken, and has a definition: {first.name} ({first.file}:{first.line})")
    for r in rust:
        if r.name not in NOT_TAKEN and r.name not in by_rust:
            fail(f"{r.name} ({r.file}:{r.line}) has no definition whose comment begins with its name, and is not listed as not taken")


def taken_tables(rust, named, functions, part_of):
    """A table for each of the two files. `named` gives for a Rust function the definitions and functions that name it."""
    text = []
    for file in FILES:
        text += ["", f"## `{file}`", "", row("Rust, line", "Definition", "Rattle function", "Contract"), "|---|---|---|---|"]
        for r in rust:
            if r.file == file and named(r)[0]:
                text += rows_of(r, *named(r), functions, part_of)
    return text


def not_taken_table(rust):
    text = ["", "## Not taken", "", row("Rust, line", "File", "Reason"), "|---|---|---|"]
    return text + [row(rust_cell(r), f"`{r.file}`", NOT_TAKEN[r.name]) for r in rust if r.name in NOT_TAKEN]


def rest_table(functions, definitions):
    """The functions that stand in no table above."""
    text = [
        "",
        "## Without a function in the two files",
        "",
        "Rattle functions whose rule is document 01's, or whose Rust stands in a file that was not at hand, and small helpers.",
        "",
        row("Rattle function", "What it is", "Definition", "Contract"),
        "|---|---|---|---|",
    ]
    where = {(d.crate, d.name): d for d in definitions}
    for function in functions:
        cited = [place(where[cite]) for cite in dict.fromkeys(function.cites) if cite in where]
        meaning = re.split(r"(?<=[.?]) ", function.comment)[0].replace("|", "\\|")
        text.append(row(place(function), meaning, "<br>".join(cited), contract_cell(function)))
    return text


def by_rust_name(items, rust):
    """The definitions or functions whose comments begin with the name of a Rust function, by that name."""
    found = {}
    for item in items:
        for name in names_at_head(item.comment, rust):
            found.setdefault(name, []).append(item)
    return found


def table(folder):
    """The text of docs/FUNCTIONS.md."""
    rust = rust_functions(folder)
    definitions, functions = sources()
    definitions_by, functions_by = by_rust_name(definitions, rust), by_rust_name(functions, rust)
    check_taken(rust, definitions_by)
    cited = {(d.crate, d.name) for named in definitions_by.values() for d in named}
    listed = {f for named in functions_by.values() for f in named} | {f for f in functions if cited & set(f.cites)}
    text = [
        "# Functions",
        "",
        "Made by `scripts/functions.py` from the sources; `make test` fails where it is not what the sources say. Do not edit it.",
        "",
        f"The published Rust has {len(rust)} functions and macros in `oracle/published/active.rs` and `parameters.rs`: {len(definitions_by)} are",
        f"taken and have definitions, {len(NOT_TAKEN)} are not and have a reason. Each number is a line. Files are under `crates/`.",
        "",
        "A row is one definition of the Rust function, the Rattle function whose contract cites it, and that contract: `result` is what",
        "the function gives back, and `requires` what its callers have to show first. A definition that no contract cites by itself",
        "is part of one that is named. (01) marks a name that document 01 lists as lacking in the printed text: there its own rule",
        "is built, and not the published lines.",
    ]
    text += taken_tables(rust, lambda r: (definitions_by.get(r.name, []), functions_by.get(r.name, [])), functions, whole_of(definitions, functions))
    text += not_taken_table(rust)
    text += rest_table([function for function in functions if function not in listed], definitions)
    return "\n".join(text) + "\n"


def main():
    parser = Parser(prog="functions.py", description="Writes or checks docs/FUNCTIONS.md.")
    parser.add_argument("--check", action="store_true", help="write nothing; fail if the table is stale")
    parser.add_argument("--rust", metavar="DIR", help="the folder of the published active.rs and parameters.rs")
    given = parser.parse_args()
    named = given.rust or os.environ.get("PUBLISHED_RUST")
    text = table(os.path.join(BEGAN_IN, named) if named else "oracle/published")
    if not given.check:
        write(TABLE, text)
    elif not os.path.exists(TABLE) or read(TABLE) != text.splitlines():
        fail(f"{TABLE} is not what the sources say: run 'python3 scripts/functions.py' and read what changed")


main()
