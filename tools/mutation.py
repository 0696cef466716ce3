"""Makes wrong bodies of Rattle source: it finds the functions of a file, and the places of a body at which one small change turns its meaning.

`functions_in` reads a file as `rt fmt` lays it out. `mutants_of` lists the wrong bodies of a function, each a change of one span of the file.
Nothing here knows types: a wrong body may not compile, and then it counts for nothing.
"""
import itertools
import re
from dataclasses import dataclass

from edit_files import owner_at

TOKEN = re.compile(r"""
    (?P<comment>//[^\n]*)
  | (?P<space>\s+)
  | (?P<string>b?"(?:[^"\\]|\\.)*")
  | (?P<char>b?'(?:[^'\\]|\\x[0-9a-fA-F]{2}|\\u\{[^}]*\}|\\.)')
  | (?P<label>'[a-z_]\w*)
  | (?P<number>\d[\d_]*(?:\.\d+)?(?:[iu](?:8|16|32|64|128|size))?|0x[\da-fA-F_]+)
  | (?P<word>[A-Za-z_]\w*)
  | (?P<sign>\.\.=|<<=|>>=|->|=>|::|==|!=|<=|>=|&&|\|\||\+=|-=|\*=|/=|\.\.|.)
""", re.X | re.S)

# Words that begin a statement which is no call.
NO_CALL = {"let", "return", "break", "continue", "if", "match", "for", "while", "loop", "unsafe", "const", "use", "fn", "struct",
           "static", "prove", "ghost", "else", "enum", "impl", "pub"}
LOGS = {"error", "warn", "info", "debug", "trace"}
# Macros that only the prover or the compiler reads.
GHOSTS = {"prove", "unreachable", "assert"}
TURNED = {"==": ["!="], "!=": ["=="], "<": ["<=", ">="], "<=": ["<", ">"], ">": [">=", "<="], ">=": [">", "<"], "&&": ["||"], "||": ["&&"]}
TURNED_WORDS = {"is_err": "is_ok", "is_ok": "is_err", "is_some": "is_none", "is_none": "is_some", "min": "max", "max": "min"}
OPENS, CLOSES = "([{", ")]}"
NUMBERS = {"u8", "u16", "u32", "u64", "usize", "i32", "i64"}


@dataclass(frozen=True)
class Token:
    kind: str
    text: str
    start: int
    end: int


@dataclass(frozen=True)
class Function:
    """A function with a body: its name, the type of its `impl` or none, its result's type, where its head begins, and the span of what
    its body's braces hold."""
    file: str
    owner: str
    name: str
    result: str
    head: int
    start: int
    end: int

    def path(self):
        """Its name with that of its type, or of its type and trait, if it has one."""
        return f"{self.owner}::{self.name}" if self.owner else self.name


@dataclass(frozen=True)
class Mutant:
    """A change of one span of a file. `shape` is `value` for an expression, `statement` for statements, and `body` for a whole body."""
    crate: str
    file: str
    function: str
    kind: str
    shape: str
    start: int
    end: int
    old: str
    new: str
    line: int

    def __str__(self):
        old, new = (" ".join(it.split())[:70] for it in (self.old, self.new))
        return f"{self.crate}/{self.file}:{self.line} {self.function}: {self.kind}: `{old}` -> `{new}`"


def tokens_of(text, start, end):
    """The words and signs of a span, without its comments."""
    found, at = [], start
    while at < end:
        match = TOKEN.match(text, at, end)
        at = match.end()
        if match.lastgroup not in ("comment", "space"):
            found.append(Token(match.lastgroup, match[0], match.start(), at))
    return found


def functions_in(file, text):
    """The functions of a file that have a body of several lines."""
    lines = text.splitlines(keepends=True)
    places = [0, *itertools.accumulate(len(line) for line in lines)]
    tested = next((number for number, line in enumerate(lines) if line.startswith("#[cfg(test)]\n") and "mod" in "".join(lines[number:number + 3])
                   and "{" in "".join(lines[number:number + 3])), len(lines))
    found = []
    for number, line in enumerate(lines[:tested]):
        head = re.match(r"( *)(?:pub(?:\(\w+\))? )?(?:const )?fn (\w+)", line)
        span = head and body_of(lines, number, head[1])
        if span and places[span[1]] > places[span[0] + 1]:
            signature = "".join(lines[number:span[0] + 1])
            owner = owner_at(text, places[number]) or ""
            found.append(Function(file, owner, head[2], result_of(signature), places[number], places[span[0] + 1], places[span[1]]))
    return found


def body_of(lines, number, indent):
    """The lines of the braces of a function's body. None if it has none, or one line."""
    for at in range(number, min(number + 120, len(lines))):
        line = lines[at].rstrip()
        own = line.startswith(indent) and not line[len(indent):].startswith(" ")
        if own and line.endswith((";", "}")) and at > number or line.endswith(";") and at == number or line.endswith("{}"):
            return None
        if own and (line == indent + "{" or line.endswith(" {") and "ensures" not in line and "requires" not in line):
            for last in range(at + 1, len(lines)):
                if lines[last].rstrip() == indent + "}":
                    return at, last
            return None
    return None


def result_of(signature):
    """The type of a function's result, by its signature. Empty if it has none."""
    head = re.split(r"\n\s*(?:requires|ensures|where)\b|\n? *\{\n?$", signature)[0].strip()
    depth, at = 0, None
    for place, sign in enumerate(head):
        if sign in "([{":
            depth += 1
        elif sign in ")]}":
            depth -= 1
        elif head.startswith("->", place) and depth == 0:
            at = place
    return " ".join(head[at + 2:].split()) if at is not None and head.rfind(")", 0, at) >= 0 else ""


def closing(tokens, place):
    """Where the bracket closes that opens at a place."""
    depth = 0
    for at in range(place, len(tokens)):
        depth += (tokens[at].text in OPENS) - (tokens[at].text in CLOSES)
        if depth == 0:
            return at
    return len(tokens) - 1


def statements(tokens):
    """The statements that end with a semicolon and begin with a name or a `*`, each as the places of its first token and its semicolon."""
    found = []
    for place, token in enumerate(tokens):
        before = tokens[place - 1].text if place else "{"
        if before not in ("{", "}", ";") or token.text in NO_CALL or not (token.kind == "word" or token.text == "*"):
            continue
        at = place
        while at < len(tokens) and tokens[at].text not in (";", "}") and tokens[at].text != "=>" and tokens[at].text != ":":
            at = closing(tokens, at) + 1 if tokens[at].text in OPENS else at + 1
        if at < len(tokens) and tokens[at].text == ";" and at > place + 1:
            found.append((place, at))
    return found


def is_ghost(tokens, place):
    """Whether a macro of the prover's stands here."""
    return place + 1 < len(tokens) and tokens[place].text in GHOSTS and tokens[place + 1].text == "!"


def kind_left_out(words):
    """What is left out with a statement."""
    if words[0] in LOGS:
        return "log line left out"
    if any(it in words for it in ("more", "fetch_add", "add_one", "saturating_add", "+=")):
        return "not counted"
    if any(it in words for it in ("sync", "sync_all", "sync_data", "flush", "sync_steps", "sync_new", "sync_names")):
        return "sync left out"
    return "assignment left out" if "=" in words else "call left out"


def left_out(tokens, text):
    """Statements left out, and `?` swallowed."""
    for first, last in statements(tokens):
        words = [it.text for it in tokens[first:last]]
        if is_ghost(tokens, first) or not ({"(", "=", "+=", "-="} & set(words)):
            continue
        start, end = tokens[first].start, tokens[last].end
        yield kind_left_out(words), "statement", start, end, ""
        if words[-1] == "?":
            yield "`?` swallowed", "statement", start, end, f"let _ = {text[start:tokens[last - 1].start]};"


def last_call(tokens, function):
    """The call that a function without a result ends with, left out."""
    if function.result or not tokens or tokens[-1].text != ")":
        return
    depth, at = 0, len(tokens) - 1
    while at >= 0:
        depth += (tokens[at].text in CLOSES) - (tokens[at].text in OPENS)
        if depth < 0 or depth == 0 and tokens[at].text in (";", "}"):
            break
        at -= 1
    first = tokens[at + 1]
    if first.kind == "word" and first.text not in NO_CALL:
        yield "call left out", "statement", first.start, tokens[-1].end, ""


def spaced(text, token):
    """Whether a sign stands between spaces, as a binary operator does."""
    return text[token.start - 1].isspace() and text[token.end:token.end + 1].isspace()


def turned(tokens, text):
    """Comparisons and conditions turned."""
    for place, token in enumerate(tokens):
        if token.kind == "sign" and token.text in TURNED and spaced(text, token):
            for new in TURNED[token.text]:
                yield "comparison turned", "operator", token.start, token.end, new
        elif token.text in TURNED_WORDS and tokens[place - 1].text == "." and tokens[place + 1].text == "(":
            yield "comparison turned", "operator", token.start, token.end, TURNED_WORDS[token.text]
        elif token.text == "!" and tokens[place - 1].text in ("if", "&&", "||", "(", "=", ",") and tokens[place + 1].text != "=":
            yield "comparison turned", "operator", token.start, token.end, ""
        elif token.text == "if" and place + 1 < len(tokens) and tokens[place + 1].text not in ("let", "!"):
            at = place + 1
            while at < len(tokens) and tokens[at].text not in ("{", "=>"):
                at = closing(tokens, at) + 1 if tokens[at].text in "([" else at + 1
            inner = text[tokens[place + 1].start:tokens[at - 1].end]
            if " let " not in inner:
                yield "comparison turned", "value", tokens[place + 1].start, tokens[at - 1].end, f"!({inner})"


def number_changes(word):
    """A number changed by one, and by ten."""
    body, suffix = re.fullmatch(r"([\d_]+?)_?([iu](?:8|16|32|64|128|size))?", word).groups()
    value = int(body.replace("_", ""))
    return [f"{value + 1}{suffix or ''}", f"{value * 10 or 10}{suffix or ''}"]


def constants(tokens):
    """Numbers changed by one and by ten, and `true` and `false` exchanged."""
    for place, token in enumerate(tokens):
        before = tokens[place - 1].text if place else ""
        behind = tokens[place + 1].text if place + 1 < len(tokens) else ""
        if token.kind == "number" and re.fullmatch(r"[\d_]+?_?(?:[iu](?:8|16|32|64|128|size))?", token.text):
            if before == "." or behind == "=>" or before == "|" or behind == "|":
                continue
            for new in number_changes(token.text):
                yield "constant changed", "value", token.start, token.end, new
        elif token.text in ("true", "false") and behind not in ("=>", "|") and before not in ("|",):
            if is_pattern(tokens, place):
                continue
            yield "constant changed", "value", token.start, token.end, "false" if token.text == "true" else "true"


def is_pattern(tokens, place):
    """Whether a place stands in a pattern: the bracket round it, or itself, comes before `=>`, `=` or `|`."""
    depth = 0
    for at in range(place, len(tokens)):
        text = tokens[at].text
        depth += (text in OPENS) - (text in CLOSES)
        if depth <= 0 and text in ("=>",):
            return True
        if depth < 0 and text in (")", "]"):
            depth = 0
            continue
        if depth == 0 and text in (";", "{", "}", "=>", "=", "|", "if"):
            return text in ("=>", "=", "|") or text == "if" and "=>" in [it.text for it in tokens[at:at + 30]]
        if depth == 0 and text == ",":
            continue
    return False


def values(tokens, text):
    """`Some(..)` replaced by `None`, and `None` where a match answers."""
    for place, token in enumerate(tokens[:-1]):
        if token.text == "Some" and tokens[place + 1].text == "(":
            end = closing(tokens, place + 1)
            behind = tokens[end + 1].text if end + 1 < len(tokens) else ""
            if behind not in ("=>", "=", "|", "if") and not is_pattern(tokens, place):
                yield "result replaced", "value", token.start, tokens[end].end, "None"


def arguments(tokens, place):
    """The spans of the arguments of the call whose bracket opens at a place."""
    end, found, first, at = closing(tokens, place), [], place + 1, place + 1
    while at <= end:
        if at == end or tokens[at].text == ",":
            if at > first:
                found.append((tokens[first].start, tokens[at - 1].end))
            first = at + 1
        at = closing(tokens, at) + 1 if at < end and tokens[at].text in OPENS else at + 1
    return found


def exchanged(tokens, text, signatures):
    """Two arguments of one type exchanged, by the signatures of functions of this name."""
    for place, token in enumerate(tokens[:-1]):
        if token.kind != "word" or tokens[place + 1].text != "(" or token.text not in signatures:
            continue
        spans = arguments(tokens, place + 1)
        types = next((it for it in signatures[token.text] if len(it) == len(spans)), None)
        if not types:
            continue
        for one in range(len(spans)):
            for other in range(one + 1, len(spans)):
                (a, b), (c, d) = spans[one], spans[other]
                if types[one] == types[other] and text[a:b] != text[c:d]:
                    yield "arguments exchanged", "value", a, d, text[c:d] + text[b:c] + text[a:b]


def replacements(result):
    """The values by which a result of a type can be replaced, without its function's work."""
    if not result:
        return [""]
    if result == "bool":
        return ["true", "false"]
    if result in NUMBERS:
        return ["0", "1"]
    if result.startswith("Option<"):
        return ["None"]
    inner = re.fullmatch(r"(?:io::|fmt::)?Result<(.*?)(?:, .*)?>", result)
    if result == "fmt::Result" or inner and inner[1] == "()":
        return ["Ok(())"]
    if inner:
        return [f"Ok({it})" for it in replacements(inner[1]) if it]
    return ['""'] if result in ("&str", "&'static str") else []


def results(function, text):
    """The whole body replaced by a value."""
    for new in replacements(function.result):
        if text[function.start:function.end].strip() != new:
            yield "result replaced", "body", function.start, function.end, f"    {new}\n" if new else ""


def signatures_of(texts):
    """The types of the parameters of each function, by its name, without `self`."""
    found = {}
    for text in texts:
        for head in re.finditer(r"\bfn (\w+)(?:<[^()]*?>)?\(", text):
            tokens = tokens_of(text, head.end() - 1, min(len(text), head.end() + 3000))
            parts = [text[a:b] for a, b in arguments(tokens, 0)]
            types = [" ".join(it.partition(":")[2].split()) for it in parts if not re.fullmatch(r"(?:&(?:'\w+ )?)?(?:mut )?self", it)]
            if types not in found.setdefault(head[1], []):
                found[head[1]].append(types)
    return found


def in_logs(tokens):
    """The spans of macros that log or that the prover reads."""
    found = []
    for place, token in enumerate(tokens[:-2]):
        if token.text in LOGS | GHOSTS and tokens[place + 1].text == "!":
            found.append((tokens[place + 2].start, tokens[closing(tokens, place + 2)].end))
    return found


def mutants_of(crate, function, text, signatures):
    """The wrong bodies of a function."""
    tokens = tokens_of(text, function.start, function.end)
    logs = in_logs(tokens)
    made = [*left_out(tokens, text), *last_call(tokens, function), *turned(tokens, text), *constants(tokens), *values(tokens, text),
            *exchanged(tokens, text, signatures), *results(function, text)]
    found, seen = [], set()
    for kind, shape, start, end, new in made:
        if any(a < start and end <= b for a, b in logs) or (start, end, new) in seen:
            continue
        seen.add((start, end, new))
        line = text.count("\n", 0, start + (shape == "body")) + 1
        found.append(Mutant(crate, function.file, function.path(), kind, shape, start, end, text[start:end], new, line))
    return found


def constant_items(crate, file, text):
    """The numbers of the constants of a file changed. They belong to every function that names the constant."""
    found = []
    for item in re.finditer(r"(?m)^ *(?:pub(?:\(\w+\))? )?const (\w+): (?:u8|u16|u32|u64|usize) = ([^;]*);", text):
        for token in tokens_of(text, item.start(2), item.end(2)):
            if token.kind != "number":
                continue
            for new in number_changes(token.text) if re.fullmatch(r"[\d_]+", token.text) else []:
                line = text.count("\n", 0, token.start) + 1
                found.append(Mutant(crate, file, item[1], "constant changed", "item", token.start, token.end, token.text, new, line))
    return found
