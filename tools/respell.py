#!/usr/bin/env python3
"""Brings the repository's own definitions and lemmas to snake case, as `idNumber` to `id_number` and `held-deliver` to `held_deliver`.

usage, at the top, once, right after the port's own script: tools/respell.py

What turns is each word that a file of specs/ or a lemma file of proofs/ declares, and each variable of theirs, if it is spelled with a capital inside or with a dash.
It turns in code and in comments of .antt files, in clauses and `ghost use` items of .rt files, in the code of edits (these first get the operators and the words
of today's library), and in the documents. What Rattle itself names, as `returns-2` or `After-copy`, stays; so do strings, and the standard's words in prose.
"""
import pathlib
import re
import sys

WORD = re.compile(r'[^\s(){}.;,@"«»`]+')
NAME = r'[^\s(){}.;,@"«»`]+'
DECLARED = re.compile(rf'^\s*(?:(?:abbrev|unfoldable|inline|pub|record|data|ruleset)\s+)*((?:{NAME}\s+)+):(?=\s)', re.M)
BOUND = re.compile(r'[({]([^(){}:]+?)\s:\s')
FIELD = re.compile(rf'\.({NAME})')
QUIET = re.compile(r'"(?:[^"\\\n]|\\.)*"|--[^\n]*')
RAW = re.compile(r'"(?:[^"\\\n]|\\.)*"|//[^\n]*')
SPAN = re.compile(r'`[^`\n]+`')
# Where a field of a record falls together with the definition that it speaks of.
APART = {"code-given": "gives_code", "no-image": "is_no_image", "well-formed": "is_well_formed", "wasIn": "was_in", "wasOut": "was_out"}
# Names that the library has too keep its spelling.
LIBRARY = {"eq-eqb", "length-append", "not-true", "take-append-drop", "zero-div"}
# Words of the older library, as edits have them.
OLDER = [
    (r"(?<![^\s(){}.;,])_([^\w\s(){}.;,_]+)_(?![^\s(){}.;,])", r"◌\1◌"),
    (r"(?<=[\w)'₀-₉]) \.(?=[\w])", "."),
    (r"Rattle·(\w+)·(specs|proofs)\.\2\.", r"Rattle.\1.\2."),
    (r"Rattle·(\w+)(·specs|·proofs)?\.", r"Rattle.\1."),
]
# And in definitions alone: a projection in parentheses of its own, and one of a name that the older library had to quote.
OLDER_SPECS = [
    (r" \.«(\w+)»", r".\1"),
    (r"«(start_draw|duration_draw|randomize_start|randomize_duration)»", r"\1"),
    (r"\((\w[\w'₀-₉]*(?:\.\w+)+)\)", r"\1"),
]
OLDER_WORDS = {"getD": "get_or"}


def snake(name):
    if name in APART:
        return APART[name]
    parts = re.sub(r"(?<=[a-z0-9])(?=[A-Z])", "_", name).replace("-", "_")
    return re.sub(r"_([A-Z])(?=[a-z])", lambda m: "_" + m[1].lower(), parts)


def table_of(names):
    """The new spellings. A lemma that would have its definition's name gets _lem."""
    camel = {snake(n) for n in names if "-" not in n}
    return {n: snake(n) + ("_lem" if "-" in n and n not in APART and snake(n) in camel else "") for n in names}


def turns(name):
    return name not in LIBRARY and re.fullmatch(r"[a-z][\w'₀-₉]*(-[\w'₀-₉]+)+|[a-z]+[0-9a-z]*([A-Z][\w'₀-₉]*)+", name) is not None


def code(text):
    return QUIET.sub(" ", text)


class Port(dict):
    """A table, and besides the names that the port's own script has turned in the code: those whose new spelling the code has."""

    def __init__(self, table, words, but):
        super().__init__(table)
        self.words, self.but = words, but

    def get(self, name, default=None):
        if name in self:
            return self[name]
        if turns(name) and name not in self.but and snake(name) in self.words:
            return snake(name)
        return default


def declared(files):
    """What the files declare, and the variables that they bind, as far as these are to turn."""
    names, variables = set(), set()
    for f in files:
        text = code(f.read_text())
        for m in DECLARED.finditer(text):
            names.update(w for w in m[1].split() if turns(w))
        for m in BOUND.finditer(text):
            variables.update(w for w in m[1].split() if turns(w))
        for m in re.finditer(r"\b(?:let|λ)\s+([^=.]+?)\s*[=.:]", text):
            variables.update(w for w in re.findall(NAME, m[1]) if turns(w))
    return names, variables


def turned(text, table):
    return WORD.sub(lambda m: table.get(m[0], m[0]), text)


def between(pattern, text, inside, outside):
    at, out = 0, []
    for m in pattern.finditer(text):
        out += [outside(text[at : m.start()]), inside(m[0])]
        at = m.end()
    return "".join(out + [outside(text[at:])])


def comment(text, names, camel):
    """In a comment all turns between backticks, else only a name that no prose has: one with a capital inside."""
    spans = lambda t: turned(t, names)
    bare = lambda t: re.sub(r"[\w']+", lambda m: camel.get(m[0], m[0]), t)
    return between(SPAN, text, spans, bare)


def main():
    top = pathlib.Path(".")
    antt = sorted(top.glob("crates/*/specs/**/*.antt")) + sorted(top.glob("crates/*/proofs/*.antt"))
    walks = sorted(f for f in top.glob("crates/*/proofs/*/**/*.antt"))
    names, variables = declared(antt)
    everything = table_of(names | variables | {"wasIn", "wasOut"})
    own = {n: everything[n] for n in names}
    camel = {n: s for n, s in own.items() if "-" not in n}
    words = {w for f in antt for w in WORD.findall(code(f.read_text()))} | set(everything.values())
    for f in antt:
        text = f.read_text()
        f.write_text(between(QUIET, text, lambda q: q if q[0] == '"' else comment(q, own, camel), lambda t: turned(t, everything)))
    for f in walks:
        text = f.read_text()
        uses = {w for u in re.findall(r"(?m)^use Rattle\.[\w.+]+?\.(?:specs|proofs)\.[^\n{]*\{([^}]*)\}", text) for w in WORD.findall(u)}
        fields = {n: own[n] for n in own if n in uses or "-" not in n}
        f.write_text(between(QUIET, text, lambda q: q if q[0] == '"' else comment(q, own, camel), lambda t: turned(t, fields)))
    for f in sorted(top.glob("crates/*/src/**/*.rt")):
        text = f.read_text()
        f.write_text(between(RAW, text, lambda q: q if q[0] == '"' else comment(q, own, camel), lambda t: turned(t, camel)))
    for f in sorted(top.glob("crates/*/must-fail/*.edit")):
        lines, where = [], ""
        for line in f.read_text().split("\n"):
            m = re.match(r"(old|new):(.*)", line)
            if m:
                body = m[2]
                for a, b in OLDER + (OLDER_SPECS if where.endswith(".antt") else []):
                    body = re.sub(a, b, body)
                line = m[1] + ":" + turned(turned(body, OLDER_WORDS), Port(everything, words, ()))
            elif line.startswith("file:"):
                where = line[5:].strip()
            elif line.startswith("breaks:"):
                line = turned(line, own)
            else:
                line = comment(line, Port(own, words, variables), camel)
            lines.append(line)
        f.write_text("\n".join(lines))
    for f in [top / "README.md", *sorted(top.glob("docs/**/*.md")), *sorted(top.glob("tests/**/*.md"))]:
        if f.name == "PORT.md":
            continue
        f.write_text(comment(f.read_text(), Port(own, words, variables), Port(camel, words, variables)))
    return 0


if __name__ == "__main__":
    sys.exit(main())
