#!/usr/bin/env python3
"""Checks functions of a cycle one by one, each over stand-ins for the functions of the cycle that it calls.

    python3 bench/stand_ins.py CRATE [FUNCTION ..] [--into FOLDER]
    python3 bench/stand_ins.py CRATE --edits FOLDER [--into FOLDER]

The functions of a cycle (`#[cycle(NAME)]`) are proved together, which may take an hour, so no wrong body of one of them
can be tried by the gate. A stand-in has the contract of the function that it stands for, and a body that meets every
contract of the cycle. So what is proved over stand-ins is what the cycle's proof says of each function, except that
the cycle ends.

The first form checks the functions, written `module::function`; with none it checks the whole crate, so all of them.
It prints what isn't proved, and the status is then 1. The second form tries each `*.edit` of a folder (the form of
crates/NAME/must-fail, e.g. `bench/stand_ins` for `js_parser_descent`): first the functions that the edits change must be
proved without them, and then each edit must be refused by an open goal. A bad edit doesn't apply, changes no function
of a cycle, or makes no program; it refuses nothing.

Writes the crate, and copies of those that it stands on, in a folder of its own, or in FOLDER, which keeps what was
checked for the next run. Crates that are checked in this checkout (out/) aren't checked again. It is no part of the
gate; one function takes about a minute.
"""

import argparse
import contextlib
import glob
import os
import re
import shutil
import subprocess
import sys
import tempfile

from programs import TOP, below, dependencies

STAND_IN = "Err(js_parser_readers::fault::ParseError::Memory)"

FUNCTION = re.compile(r"((?:^(?://|#\[)[^\n]*\n)*)^((?:pub )?fn (\w+).*?)[ \n]\{\n(.*?)^\}\n", re.M | re.S)
CYCLE = re.compile(r"^#\[cycle\((\w+)\)\]\n", re.M)
IMPORT = re.compile(r"^use crate::(\w+)::(?:(\w+)|\{([^{}]*)\});\n", re.M)
ENTRY = re.compile(r"^(?=(?:abbrev )?pub )", re.M)
# an answer that names what the edit took away
LOST_NAME = re.compile(r"(?:note: )?(?:\./)?proofs/.*(?:has no field|is not in scope|has no `|was not admitted)")


class BadEdit(Exception):
    pass


def read(path):
    with open(path) as f:
        return f.read()


def write(path, text):
    os.makedirs(os.path.dirname(path), exist_ok=True)
    with open(path, "w") as f:
        f.write(text)


def files_of(crate):
    """The source files of a crate: each module with its text."""
    paths = sorted(glob.glob(os.path.join(TOP, "crates", crate, "src", "*.rt")))
    return {os.path.basename(path)[: -len(".rt")]: read(path) for path in paths}


def functions_of(files):
    """The functions of the cycles: each name with its module, its cycle and its text."""
    found = {}
    for module, text in files.items():
        for function in FUNCTION.finditer(text):
            cycle = CYCLE.search(function[1])
            if cycle:
                assert function[3] not in found, f"two functions are named {function[3]}"
                found[function[3]] = (module, cycle[1], function[0])
    return found


# The source files of the crate over stand-ins.


def public(head):
    return head if head.startswith("pub ") else "pub " + head


def without_imports(text, functions):
    """The text without the imports of functions of the cycles."""

    def others(found):
        names = [name.strip() for name in (found[2] or found[3]).split(",")]
        names = [name for name in names if name and name not in functions]
        return f"use crate::{found[1]}::{{{', '.join(names)}}};\n" if names else ""

    return IMPORT.sub(others, text)


def stand_ins(text, functions):
    """A file with stand-ins for the functions of the cycles in this file."""
    before = without_imports(text[: FUNCTION.search(text).start()], functions)
    heads = [public(function[2]) for function in FUNCTION.finditer(text) if CYCLE.search(function[1])]
    return before + "\n".join(f"{head}\n{{\n    {STAND_IN}\n}}\n" for head in heads)


def over_stand_ins(text, functions):
    """The file, with stand-ins for all functions of the cycles that are called in it."""
    call = re.compile(rf"(?<![\w:.])(?:crate::(?:\w+::)?)?({'|'.join(functions)})\(")
    used = set()

    def standing_in(found):
        used.add(functions[found[1]][0])
        return f"stand_in_{functions[found[1]][0]}::{found[1]}("

    def changed(found):
        before, head = found[1], found[2]
        if CYCLE.search(before):
            before, head = CYCLE.sub("", before), public(head)
        return f"{before}{head}\n{{\n{call.sub(standing_in, found[4])}}}\n"

    first = FUNCTION.search(text).start()
    functions_text = FUNCTION.sub(changed, text[first:])
    imports = "".join(f"use crate::stand_in_{module};\n" for module in sorted(used))
    return without_imports(text[:first], functions) + imports + "\n" + functions_text


def write_sources(folder, files):
    functions = functions_of(files)
    modules = {module for module, _, _ in functions.values()}
    for module, text in files.items():
        if module in modules:
            write(os.path.join(folder, f"stand_in_{module}.rt"), stand_ins(text, functions))
            text = over_stand_ins(text, functions)
        if module == "lib":
            text = re.sub(r"^mod ", "pub mod ", text, flags=re.M)
            text += "".join(f"pub mod stand_in_{module};\n" for module in sorted(modules))
        write(os.path.join(folder, f"{module}.rt"), text)


# The answers of a cycle, cut up into the folders of its functions.


def own_head(head, cycle, module, name):
    """What stands before the answers, with the function's own goals for those of the cycle."""
    lines = []
    for line in head.splitlines(True):
        ways = re.search(r"\{(.*)\}", line)
        if f".+{cycle}." in line and ways:
            own = [way.split("-", 1)[1] for way in ways[1].split(", ") if way.startswith(f"{module}::{name}-")]
            line = f"{line[: ways.start()]}{{{', '.join(own)}}}\n" if own else ""
        lines.append(line.replace(f".+{cycle}.", f".{module}.{name}."))
    return "".join(lines)


def own_answers(entries, module, name):
    own = [entry for entry in entries if re.match(rf"(?:abbrev )?pub {module}::{name}-", entry)]
    text = re.sub(rf"^({module}::{name}-\S+) t ", r"\1 ", "".join(own), flags=re.M)
    return text.replace(f"{module}::{name}-", "")


def own_invariants(entries, module, name):
    own = [entry for entry in entries if re.match(rf"(?:abbrev )?pub \w+-{module}::{name}-", entry)]
    return "".join(own).replace(f"-{module}::{name}-", "-")


def write_proofs(source, folder, functions):
    shutil.copytree(source, folder, ignore=shutil.ignore_patterns("+*"))
    for cycle in {cycle for _, cycle, _ in functions.values()}:
        for kind, own in (("Answers", own_answers), ("Invariants", own_invariants)):
            path = os.path.join(source, f"+{cycle}", f"{kind}.antt")
            head, *entries = ENTRY.split(read(path)) if os.path.exists(path) else [""]
            for name, (module, in_cycle, _) in functions.items():
                text = own(entries, module, name)
                if in_cycle == cycle and text:
                    head_text = own_head(head, cycle, module, name)
                    write(os.path.join(folder, module, name, f"{kind}.antt"), head_text + text)


# The folder, and checks in it.


def write_crate(folder, crate, files):
    """Writes the crate over stand-ins; what was checked there stays."""
    source, target = (os.path.join(top, "crates", crate) for top in (TOP, folder))
    for part in ("src", "specs", "proofs"):
        shutil.rmtree(os.path.join(target, part), ignore_errors=True)
    shutil.copytree(os.path.join(source, "specs"), os.path.join(target, "specs"))
    write_sources(os.path.join(target, "src"), files)
    write_proofs(os.path.join(source, "proofs"), os.path.join(target, "proofs"), functions_of(files))


def write_crates_below(folder, crate):
    lines = dependencies()
    names = below([crate], lines)
    for name in names:
        source, target = (os.path.join(top, "crates", name) for top in (TOP, folder))
        for part in ("src", "specs", "proofs", "out"):
            there = os.path.join(source, part), os.path.join(target, part)
            if part != "out":
                shutil.rmtree(there[1], ignore_errors=True)
            if name != crate and os.path.exists(there[0]) and not os.path.exists(there[1]):
                shutil.copytree(*there)
    write(os.path.join(folder, "crates.txt"), "".join(f"{name}: {' '.join(lines[name])}\n" for name in names))


def check(folder, crate, functions):
    """The status of a check of these functions, or of the whole crate where there are none, and what it says."""
    command = ["rt", "check"] + [word for function in functions for word in ("--only", function)]
    done = subprocess.run(command, cwd=os.path.join(folder, "crates", crate), capture_output=True, text=True)
    return done.returncode, done.stdout + done.stderr


def faults(said):
    """The lines that say which functions aren't proved, and where and why."""
    return [line for line in said.splitlines() if re.match(r"fn .*: (?!proved$)|(note: )?\S+:\d+:\d+: ", line)]


# Edits.


def edited(files, edit):
    """The files with the edit."""
    files = dict(files)
    module = old = None
    for line in read(edit).splitlines():
        word, _, text = line.partition(":")
        text = text.removeprefix(" ")
        if word == "file":
            module = os.path.basename(text).removesuffix(".rt")
        elif word == "old":
            old = text
        elif word == "new":
            if not old or files.get(module, "").count(old) != 1:
                raise BadEdit(f"{old!r} isn't there once")
            files[module] = files[module].replace(old, text)
    return files


def changes(files, edit):
    """The functions of cycles that the edit changes."""
    before, after = functions_of(files), functions_of(edited(files, edit))
    changed = [f"{after[name][0]}::{name}" for name in after if after[name] != before.get(name)]
    if not changed:
        raise BadEdit("it changes no function of a cycle")
    return changed


def is_refused(crate, functions, lines):
    """Whether one of these functions isn't proved, and not only since an answer names what the edit took away."""
    unproved = [f"fn {crate}::{function}: {word}" for function in functions for word in ("not proved", "no proof")]
    goals = [line for line in lines if not line.startswith("fn ") and not LOST_NAME.match(line)]
    return bool(goals) and any(line.startswith(tuple(unproved)) for line in lines)


def tried(folder, crate, files, edit):
    """What comes of an edit: a word, and the lines that say why."""
    try:
        functions = changes(files, edit)
    except BadEdit as fault:
        return "bad edit", [str(fault)]
    write_crate(folder, crate, edited(files, edit))
    status, said = check(folder, crate, functions)
    if status == 0:
        return "NOT REFUSED", functions
    lines = faults(said)
    if is_refused(crate, functions, lines):
        return "refused", lines
    return "bad edit", lines or said.splitlines()[-5:]


def are_proved(folder, crate, files, functions):
    """Whether these functions are proved; prints what isn't."""
    write_crate(folder, crate, files)
    status, said = check(folder, crate, functions)
    if status:
        print(*faults(said), said.splitlines()[-1], sep="\n")
    print(f"{' '.join(functions) or 'all functions'}: {'not proved' if status else 'proved'}", flush=True)
    return status == 0


def are_refused(folder, crate, files, edits):
    """Whether all these edits are refused, and their functions proved without them; prints what comes of each."""
    functions = set()
    for edit in edits:
        with contextlib.suppress(BadEdit):
            functions.update(changes(files, edit))
    all_refused = bool(functions) and are_proved(folder, crate, files, sorted(functions))
    for edit in edits if all_refused else []:
        word, lines = tried(folder, crate, files, edit)
        print(f"{os.path.basename(edit)}: {word}", *(line[:300] for line in lines), sep="\n    ", flush=True)
        all_refused &= word == "refused"
    write_crate(folder, crate, files)
    return all_refused


def main():
    arguments = argparse.ArgumentParser(description=__doc__, formatter_class=argparse.RawDescriptionHelpFormatter)
    arguments.add_argument("crate")
    arguments.add_argument("functions", nargs="*", metavar="function")
    arguments.add_argument("--edits", metavar="FOLDER")
    arguments.add_argument("--into", metavar="FOLDER")
    given = arguments.parse_args()
    files = files_of(given.crate)
    known = {f"{module}::{name}" for name, (module, _, _) in functions_of(files).items()}
    unknown = [name for name in given.functions if name not in known]
    if unknown:
        sys.exit(f"in no cycle of {given.crate}: {' '.join(unknown)}")
    if not known:
        sys.exit(f"{given.crate} has no cycle")
    with contextlib.nullcontext(given.into) if given.into else tempfile.TemporaryDirectory() as folder:
        write_crates_below(folder, given.crate)
        if given.edits:
            done = are_refused(folder, given.crate, files, sorted(glob.glob(os.path.join(given.edits, "*.edit"))))
        else:
            done = are_proved(folder, given.crate, files, given.functions)
    sys.exit(0 if done else 1)


if __name__ == "__main__":
    main()
