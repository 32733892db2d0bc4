#!/usr/bin/env python3
"""Spells the repository's own definitions, fields, constructors and laws in snake case, as the library does.

usage: tools/spell_names.py [--list] FOLDER

FOLDER is a checkout to which the toolchain's own script for older repositories has been applied. A word of a law keeps its dashes, which
join the names of two definitions; a definition, a field or a constructor of specs/ has none. Functions of src/ keep their names, and so
do strings. It stops, and writes nothing, where two names of one file would fall together.
"""
import os
import re
import sys

NAME = re.compile(r"(?<![\w'\-])[a-z][\w'\-]*")
DECLARED = re.compile(r"^(?:(?:unfoldable|abbrev) )?(?:pub )?([a-z][\w'\-]*) *:(?!:)")
MEMBER = re.compile(r"^  +(?:pub )?([a-z][\w'\-]*) *:(?!:)")
# Where the rule would give a law or a field the name of a definition beside it, or where the library's own name has changed. By folder.
SPECIAL = [
    ("crates/", {"is-glued": "glued_is", "is-label": "label_is", "letterLow": "is_letter_low", "getD-counts": "get_or-counts"}),
    ("crates/first_pass/", {"place_kept": "place_kept_lem"}),
    ("crates/tape/proofs/", {"root_by": "root_by_lem"}),
    ("crates/theorems/proofs/Readings.antt", {"all_digits": "all_digits_lem"}),
    ("crates/messages/proofs/write_book/", {"is_open": "is_open_lem"}),
    ("crates/sections/proofs/", {"no_start": "none_started"}),
]
STRING = re.compile(r'"(?:[^"\\\n]|\\.)*"')


def snake(word):
    """`firstIllFormed` becomes `first_ill_formed`, `table3` stays."""
    return re.sub(r"(?<=[a-z0-9])([A-Z])", r"_\1", re.sub(r"([A-Z]+)(?=[A-Z][a-z])", r"\1_", word)).lower()


def camel(word):
    return bool(re.match(r"[a-z][a-z0-9']*[A-Z]", word))


def files(root, tops, endings):
    for top in tops:
        path = os.path.join(root, top)
        if os.path.isfile(path):
            yield path
        for folder, folders, names in os.walk(path):
            folders[:] = sorted(f for f in folders if f not in ("out", ".git", "target"))
            for name in sorted(names):
                if name.endswith(endings):
                    yield os.path.join(folder, name)


def read(path):
    with open(path, encoding="utf-8") as f:
        return f.read()


def library_names():
    """Every name that the toolchain's library declares or writes, so that none of them is respelled."""
    found = set()
    for top in ("/opt/rattle/rattle", "/opt/rattle/logic_built"):
        for path in files(top, [""], (".antt",)):
            found.update(NAME.findall(read(path)))
    return found


def imported(text, crates):
    """Names that a file takes from the library."""
    found = set()
    for path, names in re.findall(r"\buse ([\w.·+'\-]+)\.\{([^}]*)\}", text):
        if path.split(".")[0] != "Rattle" or path.split(".")[1] not in crates:
            found.update(NAME.findall(names))
    return found


def new_names(root, crates):
    table = {}
    for path in files(root, ["crates"], (".antt",)):
        in_specs = "/specs/" in path
        text = read(path)
        declared = {m[1] for line in text.split("\n") for m in [DECLARED.match(line) or MEMBER.match(line)] if m}
        for name in NAME.findall(STRING.sub("", text)):
            parts = [snake(part) if camel(part) else part for part in name.split("-")]
            plain = "_".join(parts) if in_specs and name in declared else "-".join(parts)
            if plain != name and (name not in table or "-" not in plain):
                table[name] = plain
    return table


def respelled(text, table, kept, dashes):
    """The text with its names respelled, strings apart; a name with a dash only where dashes is set."""
    pieces, at = [], 0
    turn = lambda m: table.get(m[0], m[0]) if m[0] not in kept and (dashes or "-" not in m[0]) else m[0]
    for m in STRING.finditer(text):
        pieces += [NAME.sub(turn, text[at : m.start()]), m[0]]
        at = m.end()
    return "".join(pieces) + NAME.sub(turn, text[at:])


def source(text, table, kept, comment):
    """A source file: in comments only names with capitals, or in backticks."""
    lines = []
    for line in text.split("\n"):
        at = line.find(comment)
        code, note = (line, "") if at < 0 else (line[:at], line[at:])
        note = re.sub(r"`[^`]*`", lambda m: respelled(m[0], table, kept, True), note)
        lines.append(respelled(code, table, kept, True) + NAME.sub(lambda m: table.get(m[0], m[0]) if m[0] not in kept and camel(m[0]) else m[0], note))
    return "\n".join(lines)


def page(text, table):
    return re.sub(r"`[^`\n]*`", lambda m: NAME.sub(lambda n: table.get(n[0], n[0]), m[0]), text)


def together(path, text, table, kept):
    """A file's names that the table makes one, those apart that only stand in a path, in a comment or behind a dot."""
    to = {}
    text = re.sub(r"--.*", "", STRING.sub("", text))
    text = re.sub(r"\buse [\w.·+'\-]+", "", text)
    text = re.sub(r"\.[a-z][\w'\-]*", "", text)
    for name in set(NAME.findall(text)):
        to.setdefault(table.get(name, name) if name not in kept else name, set()).add(name)
    return [(path, new, sorted(old)) for new, old in to.items() if len(old) > 1]


def main(argv):
    root = argv[-1]
    crates = os.listdir(os.path.join(root, "crates"))
    table = new_names(root, crates)
    library = library_names()
    own_declared = set()
    for path in files(root, ["crates"], (".antt",)):
        own_declared |= {m[1] for line in read(path).split("\n") for m in [DECLARED.match(line) or MEMBER.match(line)] if m}
    for name in sorted(table):
        if name in library and name not in own_declared:
            del table[name]
    code = list(files(root, ["crates"], (".antt", ".rt")))
    bad, out = [], {}
    for path in code:
        text = read(path)
        kept = imported(text, crates)
        here = dict(table)
        for folder, names in SPECIAL:
            if os.path.relpath(path, root).startswith(folder):
                here.update(names)
        # There each parameter has the name of the field that it becomes.
        if path.endswith(".antt") and not path.endswith("state/specs/InnerSetters.antt"):
            bad += together(path, text, here, kept)
        out[path] = source(text, here, kept, "--" if path.endswith(".antt") else "//")
    if "--list" in argv:
        for old, new in sorted(table.items()):
            print(old, new, "(library)" if old in library else "")
    for path, new, old in bad:
        print(f"{path}: {', '.join(old)} fall together as {new}")
    taken = [(old, new) for old, new in table.items() if new in library]
    for old, new in sorted(taken):
        print(f"the library has {new} too ({old})")
    if bad:
        return 1
    for path in files(root, ["README.md", "docs", "oracle", "bindings", "examples", "tables"], (".md",)):
        out[path] = page(read(path), table)
    if "--list" not in argv:
        for path, text in out.items():
            with open(path, "w", encoding="utf-8") as f:
                f.write(text)
    return 0


if __name__ == "__main__":
    raise SystemExit(main(sys.argv[1:]))
