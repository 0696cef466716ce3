"""The wrong bodies of crates/CRATE/by-hand and crates/CRATE/must-fail: which there are, and what each changes. For edits_by_hand and wrong_bodies."""
import difflib
import itertools
import os
import re
import sys

CRATES = os.path.join(os.path.dirname(os.path.dirname(os.path.abspath(__file__))), "crates")


def edits_in(folder):
    """The names of the edits of a folder. Any other file there ends the program."""
    names = sorted(os.listdir(folder)) if os.path.isdir(folder) else []
    for name in names:
        if not re.fullmatch(r"[a-z0-9_]+\.edit", name):
            sys.exit(f"{folder}/{name} is no edit: its name has other than a to z, 0 to 9 and _ before .edit")
    return [os.path.splitext(name)[0] for name in names]


def file_of(crate, edit):
    """The file of an edit, in either folder."""
    files = [f"{CRATES}/{crate}/{folder}/{edit}.edit" for folder in ("by-hand", "must-fail")]
    return next((file for file in files if os.path.isfile(file)), None)


def chosen(words, folders=("by-hand",)):
    """The edits to be tried, by crate."""
    edits = {}
    for word in words or sorted(os.listdir(CRATES)):
        crate, _, edit = re.sub(r"\.edit$", "", word).partition("/")
        names = [edit] if edit else [name for folder in folders for name in edits_in(f"{CRATES}/{crate}/{folder}")]
        if words and not (names and file_of(crate, names[0])):
            sys.exit(f"there is no crates/{crate}/by-hand/{edit or '*'}.edit")
        edits.setdefault(crate, []).extend(names)
    return {crate: names for crate, names in edits.items() if names}


def edited(edit, folder):
    """The files that the edit changes, each with its text before and after. ValueError where it cannot be applied."""
    path, old, texts = None, None, {}
    with open(edit, encoding="utf-8") as file:
        lines = file.read().splitlines()
    for line in lines:
        word, _, value = line.partition(":")
        value = value[1:] if value.startswith(" ") else value
        if word == "file":
            path = f"{folder}/{value}"
            if path not in texts:
                if not os.path.isfile(path):
                    raise ValueError(f"there is no file {value}")
                with open(path, encoding="utf-8") as file:
                    texts[path] = [file.read()] * 2
        elif word == "old":
            old = value
        elif word == "new" and path and old:
            found = texts[path][1].count(old)
            if found != 1:
                raise ValueError(f"`{old}` stands there {found} times")
            texts[path][1] = texts[path][1].replace(old, value)
    if not any(before != after for before, after in texts.values()):
        raise ValueError("it changes nothing")
    return texts


def function_at(text, place):
    """The place in a source text of the head of the function that another place lies in. None where it lies in none."""
    found, begin = None, 0
    for line in text[:place].splitlines(True) + [text[place:].partition("\n")[0]]:
        head = re.match(r"( *)(?:pub(?:\(\w+\))? )?(?:const )?fn (\w+)", line)
        if head:
            found = begin, head
        elif found and line.rstrip("\n") == found[1][1] + "}":
            found = None
        begin += len(line)
    return found and (found[0], found[1][2])


def without_brackets(text):
    """A text without what stands between < and >."""
    depth, kept = 0, ""
    for sign, before in zip(text, " " + text):
        if sign == ">" and before not in "-=":
            depth -= 1
        elif sign == "<":
            depth += 1
        elif depth == 0:
            kept += sign
    return kept


def arguments_of(text):
    """What stands between the first < and its >, cut at commas that stand in no other brackets."""
    depth, found = 0, [""]
    for sign in text.partition("<")[2]:
        depth += {"<": 1, ">": -1}.get(sign, 0)
        if depth < 0:
            return [it.strip() for it in found]
        if sign == "," and depth == 0:
            found.append("")
        else:
            found[-1] += sign
    return []


def name_in(text):
    """The last name of a path, without what stands between < and >."""
    return (re.findall(r"\w+", without_brackets(text)) or [""])[-1]


def owner_at(text, place):
    """The type, and the trait where there is one, of the `impl` or `trait` that a place lies in, as a check prints them: `FuseSource` of
    `impl Source for Fuse`, `FaultFromFailed` of `impl From<Failed> for Fault`. None where it lies in none."""
    found = None
    for head in re.finditer(r"(?m)^( *)(?:pub(?:\(\w+\))? )?(impl|trait)\b([^{;]*)\{", text[:place]):
        if not re.search(rf"(?m)^{head[1]}\}}", text[head.end():place]):
            found = head
    if found is None:
        return None
    words = re.sub(r"\bwhere\b.*", "", found[3], flags=re.S)
    if found[2] == "trait":
        return re.match(r"\s*(\w+)", words)[1]
    own = []
    if words.startswith("<"):
        own = [name_in(it.partition(":")[0]) for it in arguments_of(words)]
        words = words[len(words) - len(re.sub(r"^<(?:[^<>]|<[^<>]*>)*>", "", words)):]
    trait, _, kind = words.rpartition(" for ")
    given = [name_in(it) for it in arguments_of(trait)]
    return name_in(kind) + name_in(trait) + "".join(it for it in given if it not in own)


def functions_of(edit, folder):
    """The functions that an edit changes, each as its module and its name in it, `a::b` and `Type::f`. None where it changes something else as well."""
    found = set()
    for path, (before, after) in edited(edit, folder).items():
        module = os.path.splitext(os.path.relpath(path, f"{folder}/src"))[0].replace("/", "::")
        matcher = difflib.SequenceMatcher(None, before.splitlines(True), after.splitlines(True), autojunk=False)
        places = [0, *itertools.accumulate(len(line) for line in before.splitlines(True))]
        for _, first, last, _, _ in (it for it in matcher.get_opcodes() if it[0] != "equal"):
            for line in range(first, max(last, first + 1)):
                at = function_at(before, places[line])
                if at is None or not path.endswith(".rt"):
                    return None
                owner = owner_at(before, at[0])
                found.add(("" if module in ("lib", "main") else module, f"{owner}::{at[1]}" if owner else at[1]))
    return found or None


def batches_of(edits, functions_of_edit):
    """The edits in lists of which no two change one function. An edit that changes something else than functions stands alone."""
    batches = []
    for edit in edits:
        try:
            functions = functions_of_edit(edit)
        except ValueError:
            functions = None
        place = next((it for it in batches if functions and it[1] and not functions & it[1]), None)
        if place:
            place[0].append(edit)
            place[1].update(functions)
        else:
            batches.append(([edit], set(functions or ())))
    return [names for names, _ in batches]


def tests_of(edit):
    """The crate whose tests are to refuse the edit, and the arguments for a program, if it is not for the prover."""
    with open(edit, encoding="utf-8") as file:
        return next((line.partition(":")[2].strip() for line in file if line.startswith("tests:")), None)
