#!/usr/bin/env python3
"""Checks that what the documents name exists, and that the documents keep to their limits.

    python3 bench/documents.py

Documents are README.md, CONTRIBUTING.md, bench/README.md and docs/*.md. Of what stands in backquotes it checks

- paths: `debug_host_commands/src/run.rt`, `docs/GATE.md`. A path without a crate, as `specs/Alone.antt` or `run.rt`, is looked for in
  the crates that its line or the heading above it names, and in documents for users also in those of the page;
- functions: `debug_host_commands::run::run`, `Type::method` where the repository has that type, and `name` before "in `path`";
- clauses: `function`.`clause`, and `.clause` of any function of the same crates;
- commands: the words after `rt`, `debug_host`, `python3` and `./`, here and in examples, but for those of docs/GUIDE.md, which
  bench/guide.py runs;
- in documents for developers every other name of several words: it must stand somewhere in the code.

Of docs/ARCHITECTURE.md it checks that the table has each crate of crates.txt once, and none before one that it stands on, and
that the drawing has each crate in the row of its layer, which is the length of the longest chain of crates that ends there.

Prints what is wrong, a line for each, and then by crate how many lines of code, imports aside, have more than 120 characters.
The status is 1 if anything is wrong; long lines are no fault.
"""
import re
import sys
from collections import Counter, defaultdict
from fnmatch import filter as filter_names
from functools import cache
from pathlib import Path
from typing import NamedTuple

TOP = Path(__file__).resolve().parent.parent
MAP = "docs/ARCHITECTURE.md"
FOR_DEVELOPERS = (MAP, "docs/PROOFS.md", "docs/PROVING.md", "docs/GATE.md", "CONTRIBUTING.md")
# pages whose examples another program runs, and those on which `.name` is no clause
PLAYED = ("docs/GUIDE.md",)
WITHOUT_CLAUSES = ("docs/PROVING.md", "docs/GUIDE.md", "CONTRIBUTING.md")
MOST_WORDS = {"README.md": 1000, MAP: 2500}
MOST_LINES = {"docs/GATE.md": 60}
MOST_CHARACTERS = 120
RT_COMMANDS = "all check ci doc fmt lib must-fail new plant run seed selftest test tidy try verdict version".split()
CODE = (".rt", ".antt")
NAMED_ALONE = CODE + (".md", ".py")
FOLDERS = ("bench", "crates", "docs", "examples", "must-fail", "proofs", "specs", "src")


class Function(NamedTuple):
    path: str
    owners: tuple
    name: str
    clauses: frozenset


class Line(NamedTuple):
    page: str
    number: int
    text: str
    crates: tuple
    everywhere: tuple
    is_example: bool

    def says(self, fault):
        return f"{self.page}:{self.number}: {fault}"


# What the repository has.


@cache
def uses():
    """The crates that each crate stands on, in the order of crates.txt; those of the kit are left out."""
    lines = [line.partition(":") for line in (TOP / "crates.txt").read_text().splitlines() if not line.startswith("#")]
    named = {name.split()[0]: below.split() for name, colon, below in lines if colon}
    return {name: [crate for crate in below if crate in named] for name, below in named.items()}


@cache
def layer(crate):
    """The length of the longest chain of crates that ends with this one."""
    return 1 + max((layer(below) for below in uses()[crate]), default=0)


@cache
def files():
    """The paths of all files of the repository and of their folders, without what builds leave."""
    left_out = {"out", ".git", "__pycache__"}
    found = {path.relative_to(TOP) for path in TOP.rglob("*") if not left_out & set(path.relative_to(TOP).parts)}
    return {str(path) for path in found}


@cache
def code():
    """The text of each file of code, by its path from crates/."""
    paths = sorted(path for path in files() if path.startswith("crates/") and path.endswith(CODE))
    return {path.removeprefix("crates/"): (TOP / path).read_text() for path in paths}


@cache
def words():
    """All words of the code and of the programs beside it."""
    programs = [(TOP / path).read_text() for path in ["build", "debug_host", *filter_names(files(), "bench/*.py")]]
    return {word for text in [*code().values(), *programs] for word in re.findall(r"[\w'-]+", text)}


@cache
def functions():
    """The functions of all crates, by name."""
    found = defaultdict(list)
    for path, text in code().items():
        if path.endswith(".rt"):
            for function in functions_of(path, text):
                found[function.name].append(function)
    return found


VISIBLE = r"(?:pub(?:\([^)]*\))? )?(?:const )?(?:unsafe )?"
BEGIN = re.compile(rf"^(?:( *){VISIBLE}fn (\w+)|{VISIBLE}(?:impl|trait)\b([^{{]*))", re.M)
CLAUSE = re.compile(r"\b(?:ensures|requires) (\w+) \{")


def functions_of(path, text):
    """The functions of a file, each with the types and traits of its impl, or its trait, and the names of its clauses."""
    owners, found = (), []
    begins = list(BEGIN.finditer(text))
    for begin, after in zip(begins, [match.start() for match in begins[1:]] + [len(text)]):
        indent, name, head = begin.groups()
        if name:
            clauses = frozenset(CLAUSE.findall(text, begin.end(), after))
            found.append(Function(path, owners if indent else (), name, clauses))
        else:
            owners = tuple(re.findall(r"\b[A-Z]\w*", head))
    return found


@cache
def types():
    """The paths of the files that declare structs, enums and traits, by the names of these."""
    found = defaultdict(list)
    for path, text in code().items():
        for name in re.findall(r"\b(?:struct|enum|trait) (\w+)", text) if path.endswith(".rt") else ():
            found[name].append(path)
    return found


@cache
def program_words():
    """The names of the program's commands and options, as its definitions have them."""
    text = code()["debug_host_options/specs/Commands.antt"]
    return set(re.findall(r'word \(codes "(\w+)"\)', text)), set(re.findall(r'name \(codes "(\w+)"\)', text))


# What the documents say.


def pages():
    """The paths of the documents, from the top of the repository."""
    return ["README.md", "CONTRIBUTING.md", "bench/README.md", *sorted(filter_names(files(), "docs/*.md"))]


def quoted(text):
    """What stands in backquotes."""
    return re.findall(r"`([^`]+)`", text)


def crates_in(text):
    """The crates that a text names, in backquotes or in a path."""
    firsts = [re.split(r"/|::", part.removeprefix("crates/"))[0] for part in quoted(text)]
    return tuple(first for first in firsts if first in uses())


def lines_of(page):
    """The lines of a document, each with the crates that it is about."""
    text = (TOP / page).read_text()
    everywhere = () if page in FOR_DEVELOPERS else crates_in(text)
    above, found = (), []
    for number, line in enumerate(text.splitlines(), 1):
        if line.startswith("#"):
            above = crates_in(line)
        elif line.startswith("**"):
            above = crates_in(line.split("**")[1]) or above
        found.append(Line(page, number, line, crates_in(line) + above, everywhere, line.startswith("    ")))
    return found


# Paths.


def is_path(part):
    """Whether a text in backquotes names a file or a folder of the repository."""
    if not re.fullmatch(r"\w[\w./*-]*", part) or part.rstrip("/") in FOLDERS:
        return False
    first, slash, _ = part.partition("/")
    return first in FOLDERS or first in uses() if slash else part.endswith(NAMED_ALONE)


def found_at(line, path):
    """The files and folders that a path of a document may mean."""
    whole = [path, f"crates/{path}", str(Path(line.page).parent / path), f"bench/{path}"]
    return files_of(whole + in_crates(line.crates, path)) or files_of(in_crates(line.everywhere, path))


def in_crates(crates, path):
    """Where a path may stand in some crates."""
    return [f"crates/{crate}/{folder}{path}" for crate in crates for folder in ("", "specs/", "src/", "proofs/")]


def files_of(paths):
    """The files and folders at some paths, which may have `*`."""
    names = {path.rstrip("/") for path in paths}
    globs = [name for name in names if "*" in name]
    return names & files() | {file for name in globs for file in filter_names(files(), name)}


def missing_paths(line):
    """The paths that a line names, and the pages to which it leads, if they aren't there."""
    named = [part for part in quoted(line.text) if is_path(part)]
    leads = [target for target in re.findall(r"\]\(([^)#]+)[^)]*\)", line.text) if ":" not in target]
    return [line.says(f"no file `{path}`") for path in named + leads if not found_at(line, path)]


# Functions and clauses.


def has_member(owner, name):
    """Whether a type or trait has a function, or the file that declares it the name of a variant."""
    is_function = any(owner in function.owners for function in functions()[name])
    return is_function or any(has_word(name, code()[path]) for path in types()[owner])


def has_path_function(part):
    """Whether `crate::module::function` or `crate::module::Type::method` is there."""
    crate, *modules, name = part.split("::")
    owner = modules.pop() if modules and modules[-1][:1].isupper() else None
    path = f"{crate}/src/" + "/".join(modules or ["lib"]) + ".rt"
    return any(f.path == path and (owner is None or owner in f.owners) for f in functions()[name])


def missing_functions(line):
    """The functions with `::` that a line names, if they aren't there."""
    found = []
    for part in quoted(line.text):
        if not re.fullmatch(r"\w+(::\w+)+", part):
            continue
        owner, name = part.split("::")[-2:]
        if part.split("::")[0] in uses():
            found += [] if has_path_function(part) else [part]
        elif owner in types() and not has_member(owner, name):
            found.append(part)
    return [line.says(f"no function `{part}`") for part in found]


NAMES_IN_PATH = re.compile(r"((?:\.?`[^`]+`(?:, and |, | and )?)+) in `([\w/]+\.(?:rt|antt))`")


def missing_words_of_paths(line):
    """The words of which a line says that they stand in a file, if they don't."""
    found = []
    for named, path in NAMES_IN_PATH.findall(line.text):
        text = "\n".join(code().get(place.removeprefix("crates/"), "") for place in found_at(line, path))
        names = [part for part in quoted(named) if not is_path(part) and part not in uses()]
        words_there = [name.split("::")[-1].split()[0].lstrip(".") for name in names]
        found += [line.says(f"no `{word}` in `{path}`") for word in words_there if text and not has_word(word, text)]
    return found


def has_word(word, text):
    """Whether a text has a word, of letters, digits, `_` and `-`."""
    return re.search(rf"(?<![\w-]){re.escape(word)}(?![\w-])", text) is not None


@cache
def clauses_in(crates):
    """The clauses of all functions of some crates."""
    everything = [function for group in functions().values() for function in group]
    return {clause for function in everything if function.path.split("/")[0] in crates for clause in function.clauses}


def has_clause(crates, part, clause):
    """Whether a function has a clause: one of the type that it is named with, or else one of these crates."""
    *types_of, name = part.split("::")
    named = [f for f in functions()[name] if clause in f.clauses]
    return any(types_of[-1] in f.owners if types_of else f.path.split("/")[0] in crates for f in named)


def missing_clauses(line):
    """The clauses that a line names, if no function of its crates has them."""
    if line.page in WITHOUT_CLAUSES:
        return []
    pairs = re.findall(r"`([\w:]+)`\.`(\w+)`", line.text)
    found = [f"`{name}`.`{clause}`" for name, clause in pairs if not has_clause(line.crates, name, clause)]
    alone = re.findall(r"`\.(\w+)`", line.text)
    found += [f"`.{clause}`" for clause in alone if clause not in clauses_in(line.crates)]
    return [line.says(f"no clause {clause}") for clause in found]


# Commands.


def commands_in(line):
    """The commands that a line shows: in backquotes, after `$ `, or as an indented line of their own."""
    shown = quoted(line.text) if not line.is_example else [line.text.strip().removeprefix("$ ")]
    return [re.sub(r"^(?:[A-Z_]+=\S+ )+", "", part) for part in shown]


def faults_of_program(words_after):
    """What is wrong with the words after `debug_host`."""
    commands, options = program_words()
    texts = {"-h", "--help", "--version"}
    if not words_after or words_after[0] in texts or not re.fullmatch(r"[a-z]+", words_after[0]):
        return []
    wrong = [] if words_after[0] in commands else [f"no command `debug_host {words_after[0]}`"]
    asked = [word.partition("=")[0] for word in words_after if re.match(r"--\w", word)]
    unknown = [word for word in asked if word not in texts and word[2:] not in options]
    return wrong + [f"no option `{word}` of `debug_host`" for word in unknown]


def faults_of_script(words_after):
    """What is wrong with the words after `python3`."""
    if not words_after or not words_after[0].endswith(".py") or "/" not in words_after[0]:
        return []
    path = TOP / words_after[0]
    if not path.is_file():
        return [f"no program `{words_after[0]}`"]
    options = [word for word in words_after[1:] if re.match(r"--\w", word)]
    return [f"no option `{option}` of `{words_after[0]}`" for option in options if option not in path.read_text()]


def faults_of_command(text):
    """What is wrong with a command."""
    first, *after = re.split(r"\s+", re.split(r"\s[|>&<#]|  ", text)[0]) if text else [""]
    if first == "rt" and after and re.fullmatch(r"[a-z][a-z-]+", after[0]):
        return [] if after[0] in RT_COMMANDS else [f"no command `rt {after[0]}`"]
    if first.rpartition("/")[2] == "debug_host":
        return faults_of_program(after)
    if first == "python3":
        return faults_of_script(after)
    if first.startswith("./") and not (TOP / first).exists() and first.count("/") == 1:
        return [f"no program `{first}`"]
    return []


def wrong_commands(line):
    """The faults of the commands that a line shows."""
    if line.is_example and line.page in PLAYED:
        return []
    return [line.says(fault) for command in commands_in(line) for fault in faults_of_command(command)]


# Words.


def unknown_words(line):
    """The names of a line for developers that stand nowhere in the code."""
    if line.page not in FOR_DEVELOPERS or line.is_example:
        return []
    names = [part for part in quoted(line.text) if re.fullmatch(r"[A-Za-z]\w+", part)]
    looks = [name for name in names if "_" in name.strip("_") or re.search(r"[a-z][A-Z]", name)]
    return [line.says(f"`{name}` stands nowhere in the code") for name in looks if not is_known(name)]


def is_known(name):
    """Whether the code has a word, or one that begins with it where it ends with `_`."""
    return name in words() or name in uses() or (name.endswith("_") and any(word.startswith(name) for word in words()))


# The map.


def table_crates(lines):
    """The crates of the first column of the map's table, in order, with their lines."""
    rows = [(line, re.match(r"\| `(\w+)` \|", line.text)) for line in lines]
    return [(line, row[1]) for line, row in rows if row]


def drawing_crates(lines):
    """The crates of the drawing with their lines and the number of their row."""
    rows = [(line, re.match(r" {4,}(\d+)  (.+)", line.text)) for line in lines]
    return [(line, int(row[1]), word) for line, row in rows if row for word in row[2].split()]


def faults_of_names(named, whole):
    """What is wrong with a list of crates, wherever they stand: one that isn't, that is missing or that stands twice."""
    count = Counter(name for _, name in named)
    wrong = [line.says(f"no crate `{name}` in the {whole}") for line, name in named if name not in uses()]
    wrong += [f"{MAP}: crate `{name}` stands {count[name]} times in the {whole}" for name in uses() if count[name] != 1]
    return wrong


def faults_of_table(lines):
    """What is wrong with the map's table."""
    named = table_crates(lines)
    place = {name: number for number, (_, name) in enumerate(named)}
    wrong = faults_of_names(named, "table")
    for line, name in named:
        later = [below for below in uses().get(name, ()) if place.get(below, -1) > place[name]]
        wrong += [line.says(f"`{name}` stands before `{below}`, on which it stands") for below in later]
    return wrong


def faults_of_drawing(lines):
    """What is wrong with the drawing."""
    named = drawing_crates(lines)
    wrong = faults_of_names([(line, name) for line, _, name in named], "drawing")
    misplaced = [(line, row, name) for line, row, name in named if name in uses() and row != layer(name)]
    return wrong + [line.says(f"`{name}` is drawn in row {row}, its layer is {layer(name)}") for line, row, name in misplaced]


# Limits.


def faults_of_size(page):
    """Whether a document is longer than it may be."""
    text = (TOP / page).read_text()
    sizes = [(len(text.split()), MOST_WORDS, "words"), (len(text.splitlines()), MOST_LINES, "lines")]
    too_long = [(size, most[page], unit) for size, most, unit in sizes if size > most.get(page, size)]
    return [f"{page}: {size} {unit}, and at most {most} may be" for size, most, unit in too_long]


def long_lines():
    """By crate, how many lines of code have too many characters; imports aside, which the formatter doesn't break."""
    count = Counter()
    for path, text in code().items():
        lines = [line for line in text.splitlines() if not re.match(r"\s*(?:pub )?(?:ghost )?use ", line)]
        count[path.split("/")[0]] += sum(len(line) > MOST_CHARACTERS for line in lines)
    return {crate: number for crate, number in count.items() if number}


CHECKS = (missing_paths, missing_functions, missing_words_of_paths, missing_clauses, wrong_commands, unknown_words)


def faults_of_folders():
    """Whether crates.txt and crates/ have the same crates."""
    folders = {path.name for path in (TOP / "crates").iterdir() if path.is_dir()}
    return [f"crates.txt: `{crate}` stands there or in crates/, and not in both" for crate in sorted(folders ^ set(uses()))]


def faults():
    """All that is wrong."""
    found = faults_of_folders()
    for page in pages():
        lines = lines_of(page)
        found += faults_of_size(page)
        found += [fault for line in lines for check in CHECKS for fault in check(line)]
        if page == MAP:
            found += faults_of_table(lines) + faults_of_drawing(lines)
    return found


def main():
    found = faults()
    for fault in found:
        print(fault)
    long = long_lines()
    print(f"{len(found)} faults in {len(pages())} documents")
    print(f"lines of more than {MOST_CHARACTERS} characters: {sum(long.values())}", end="")
    print("".join(f", {crate} {number}" for crate, number in sorted(long.items())))
    sys.exit(1 if found else 0)


if __name__ == "__main__":
    main()
