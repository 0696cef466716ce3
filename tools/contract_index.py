#!/usr/bin/env python3
"""Makes docs/generated/CONTRACTS.md and docs/generated/CRATES.md from the code and crates.txt.

    python3 tools/contract_index.py            prints both
    python3 tools/contract_index.py --update   writes both
    python3 tools/contract_index.py --check    status 1 if one of them has another text; says which

CONTRACTS.md has for each crate its public functions: the name, the first sentence of the doc comment and the names of the contract's
clauses. After them are the other functions of the crate, file by file, with the names of their clauses. CRATES.md has the first sentence
of each crate's own comment (`//!`), and the graph of `crates_graph.py`.
"""
import argparse
import re
import sys
from pathlib import Path

import crates_graph

ROOT = Path(__file__).resolve().parent.parent
PAGES = ROOT / "docs" / "generated"
BESIDE = "# Beside the server"
EDITED = "<!-- Written by `tools/contract_index.py --update`: do not edit. The gate refuses a page that does not fit the code. -->\n"
HEAD = EDITED + """# Contracts

To find a function, search this page for its name. Each crate has a table of its public functions: what each does, in the first
sentence of its doc comment, and the names of its contract's clauses. "Is" is a clause without a name, "if" a condition that callers
must meet. Below the table are the crate's other functions, by file, with their clauses. The code is in `crates/CRATE/src`.
[PROMISES](../PROMISES.md) says what the clauses say together.
"""
CRATES_HEAD = EDITED + """# Crates

The lowest come first. Each name leads to the crate's contracts. [Below](#which-crate-needs-which) is which crate needs which.

"""
GRAPH_HEAD = """
## Which crate needs which

Each arrow leads from a crate to one below it. Arrows that follow from others are left out, and so are tests, examples and the kit's crates.

"""
FUNCTION = re.compile(r"^(\s*)(pub(?:\([a-z]+\))? )?(?:const |unsafe |extern \"C\" )*fn (\w+)")
CLAUSE = re.compile(r"^\s*(ensures|requires)(?: (\w+))?(?: for [^{]*)? \{")
OWNER = re.compile(r"^(?:pub(?:\([a-z]+\))? )?(?:unsafe )?(impl|trait)\b")


class Function:
    """A function: its file, its owner (the type or trait it is of), whether it is public, its first sentence, its clauses."""

    def __init__(self, name, file, owner, public, sentence, clauses):
        self.name, self.file, self.owner, self.public = name, file, owner, public
        self.sentence, self.clauses = sentence, clauses

    def full_name(self):
        return "%s::%s" % (self.owner, self.name) if self.owner else self.name


def crates():
    """The crates of crates.txt, in its order, each with whether it is of the server, and not of the tests and examples after it."""
    found, of_server = [], True
    for line in (ROOT / "crates.txt").read_text(encoding="utf-8").splitlines():
        of_server = of_server and not line.startswith(BESIDE)
        row = line.split("#")[0]
        if ":" in row:
            found.append((row.split(":")[0].split()[0], of_server))
    return found


def first_sentence(lines):
    """The first sentence of a comment's lines, without its full stop, on one line."""
    text = " ".join(line.strip() for line in lines)
    text = re.split(r"(?<=[.!?])\s+(?=[A-Z`])|\s*$", text.split("  ")[0])[0]
    return text.rstrip(".").replace("|", "\\|")


def without_angles(text):
    """A text without what is between < and >."""
    text, before = re.sub(r"->|=>", "", text), None
    while text != before:
        before, text = text, re.sub(r"<[^<>]*>", "", text)
    return text


def owner_of(lines, at):
    """The type or trait of an `impl` or `trait` that begins at a line, and whether it is another trait's `impl`."""
    head = ""
    while at < len(lines) and "{" not in head:
        head += " " + lines[at].strip()
        at += 1
    words = without_angles(head.split("{")[0].split(" where ")[0])
    words = re.sub(r"\b(pub|unsafe|impl|trait)\b(\([a-z]+\))?", "", words).split(":")[0] if " for " not in words else words
    name = words.split(" for ")[-1].strip().split()
    return (re.sub(r"\W", "", name[0].split("::")[-1]) if name else ""), " for " in words


def clauses_of(lines, at):
    """The names of the clauses of the function whose head begins at a line: conditions with `if` before them."""
    found = []
    depth = 0
    while at < len(lines):
        line = lines[at]
        clause = CLAUSE.match(line) if depth == 0 else None
        if clause:
            kind, name = clause.groups()
            found.append(("if " + name if name else "if") if kind == "requires" else name or "is")
            depth = line.count("{") - line.count("}")
        elif depth:
            depth += line.count("{") - line.count("}")
        elif re.search(r"[{;]\s*$|\{.*\}\s*$", line):
            break
        at += 1
    return list(dict.fromkeys(found))


def shared_names(crate):
    """What a crate's root makes public: modules, and names of modules. A program makes nothing public."""
    root = ROOT / "crates" / crate / "src" / "lib.rt"
    if not root.exists():
        return set(), set()
    text = root.read_text(encoding="utf-8")
    names = set()
    for use in re.findall(r"^pub use ([^;]*);", text, flags=re.M):
        inner = re.search(r"\{(.*)\}", use, flags=re.S)
        items = inner.group(1).split(",") if inner else [use.split("::")[-1]]
        names.update(item.split(" as ")[-1].strip() for item in items if item.strip())
    return set(re.findall(r"^pub mod (\w+);", text, flags=re.M)), names


def functions_of(crate):
    """All functions of a crate, file by file."""
    top = ROOT / "crates" / crate / "src"
    modules, names = shared_names(crate)
    found = []
    for path in sorted(top.rglob("*.rt")):
        file = path.relative_to(top).as_posix()
        lines = path.read_text(encoding="utf-8").splitlines()
        is_open = file == "lib.rt" or file[:-3].split("/")[0] in modules
        owner, of_trait, is_trait = "", False, False
        for at, line in enumerate(lines):
            if OWNER.match(line):
                owner, of_trait = owner_of(lines, at)
                is_trait = bool(re.match(r"^pub (?:unsafe )?trait", line))
                continue
            if line.startswith("}"):
                owner, of_trait, is_trait = "", False, False
            head = FUNCTION.match(line)
            if not head or len(head.group(1)) > 4:
                continue
            name = head.group(3)
            top_name = owner or name
            is_public = (head.group(2) == "pub " or is_trait) and not of_trait and (is_open or top_name in names)
            comment = []
            before = at - 1
            while before >= 0 and (lines[before].strip().startswith("#[") or lines[before].strip().startswith("///")):
                if lines[before].strip().startswith("///"):
                    comment.insert(0, lines[before].strip()[3:])
                before -= 1
            found.append(Function(name, file, owner, is_public, first_sentence(comment), clauses_of(lines, at)))
    return found


def section(crate, of_server):
    """A crate's part of the page. A crate of tests or examples has no table: nobody calls it."""
    functions = functions_of(crate)
    if not of_server:
        for f in functions:
            f.public = False
    text = "\n## %s\n" % crate
    rows = ["| `%s` | %s | %s |" % (f.full_name(), f.sentence, ", ".join(f.clauses)) for f in functions if f.public]
    if rows:
        text += "\n| Function | What it does | Clauses |\n|---|---|---|\n" + "\n".join(rows) + "\n"
    inner = {}
    for f in functions:
        if not f.public:
            names = inner.setdefault(f.file, {})
            clauses = " (%s)" % ", ".join(f.clauses) if f.clauses else ""
            names["`%s`%s" % (f.full_name(), clauses)] = True
    if inner:
        text += "\n" + "\n".join("- %s: %s" % (file, ", ".join(names)) for file, names in inner.items()) + "\n"
    return text


def contracts():
    return HEAD + "".join(section(crate, of_server) for crate, of_server in crates())


def crate_sentence(crate):
    """The first sentence of a crate's own comment."""
    top = ROOT / "crates" / crate / "src"
    root = top / "lib.rt" if (top / "lib.rt").exists() else top / "main.rt"
    lines = []
    for line in root.read_text(encoding="utf-8").splitlines():
        if not line.startswith("//!") or not line[3:].strip():
            break
        lines.append(line[3:])
    return first_sentence(lines)


def crate_list():
    rows = "".join("| [%s](CONTRACTS.md#%s) | %s |\n" % (c, c, crate_sentence(c)) for c, _ in crates())
    return CRATES_HEAD + "| Crate | What it is |\n|---|---|\n" + rows + GRAPH_HEAD + crates_graph.graph(False)


def main():
    words = argparse.ArgumentParser(description=__doc__, formatter_class=argparse.RawDescriptionHelpFormatter)
    words.add_argument("--update", action="store_true")
    words.add_argument("--check", action="store_true")
    asked = words.parse_args()
    status = 0
    for name, text in (("CONTRACTS.md", contracts()), ("CRATES.md", crate_list())):
        page = PAGES / name
        if asked.update:
            page.write_text(text, encoding="utf-8")
        elif not asked.check:
            print(text)
        elif not page.exists() or page.read_text(encoding="utf-8") != text:
            print("%s does not fit the code: run tools/contract_index.py --update" % page.relative_to(ROOT))
            status = 1
    return status


if __name__ == "__main__":
    sys.exit(main())
