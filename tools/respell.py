#!/usr/bin/env python3
"""Spells the definitions, fields and lemmas of this repository in snake case, and its types in camel case.

usage: python3 tools/respell.py [--table] [FOLDER]

FOLDER is the repository's top (default: the folder above this script's). `gate-value` becomes `gate_value`, `Gates-on-bits` becomes `GatesOnBits`. What turns:
the texts of specs/ and proofs/, but for strings and comments outside backticks; of src/ the clauses, the ghost items and the `ghost use` lines; of the pages
README.md and docs/*.md, but for docs/PORT*.md, the names in backticks. What stays: names that come from the library, and the names of goals and of steps, which Rattle makes.
--table prints each old name with its new one, and those that fall together, and writes nothing. A second run changes nothing.
"""

import collections
import os
import re
import sys

WORD = r"[^\s(){}.;,@\"«»`]+"
# `Laid_out` is what the kit's script makes of a type `Laid-out`, and it leaves the old word for reading a list in names.
HALF_TURNED = re.compile(r"[A-Z][a-z]+(?:_[a-z]+)+$|(?:[a-z]+_)?getD(?:_[a-z]+)?$")
HYPHENED = re.compile(r"(?=.*[\w']-[\w'])[\w'₀-₉-]+$")
USE = re.compile(r"\buse ([^\s;{]+)\.\{([^}]*)\}")
MADE = re.compile(r"/proofs/.+/(Answers|Choices|Invariants|Proof)\.antt$")
LABEL = re.compile(r"(?m)^(?:abbrev )?(?:pub )?(\S+) : goal\.")
MADE_USE = re.compile(r"\buse \S+\.(?:Goals|Given|Needs)\.\{([^}]*)\}")
FIELD = re.compile(r"(?m)^ +pub (\S+)(?: \{[^}]*\})* :")
HEADS = ("goal", "need", "c", "l", "w", "g")
HOLDERS = ("args", "initial", "fn", "new", "last", "from", "auto", "ranges", "entry")
QUIET = re.compile(r'"(?:[^"\\\n]|\\.)*"|--[^\n]*')
CLAUSE = re.compile(r"\b(?:requires|ensures)\*?\s*(?:\w+\s*)?\{|\bghost\s+\w+\s*(?::|=)\s*\{")
GHOST_USE = re.compile(r"\bghost\s+use\b[^;]*;")


def respelled(word):
    if word[0].isupper():
        return "".join(part[:1].upper() + part[1:] for part in re.split("[-_]", word))
    return word.replace("-", "_").replace("getD", "get_or")


def texts(top, crates):
    for crate in crates:
        for part in ("specs", "proofs", "src"):
            for folder, _, files in sorted(os.walk(os.path.join(top, "crates", crate, part))):
                for name in sorted(files):
                    if name.endswith((".antt", ".rt")):
                        yield os.path.join(folder, name)


def read(path):
    with open(path, encoding="utf-8") as f:
        return f.read()


def clauses(text):
    """Where the clauses, the ghost items and the `ghost use` lines of a source stand."""
    spans = [m.span() for m in GHOST_USE.finditer(text)]
    for m in CLAUSE.finditer(text):
        depth, at = 1, m.end()
        while depth and at < len(text):
            depth += {"{": 1, "}": -1}.get(text[at], 0)
            at += 1
        spans.append((m.end(), at))
    return sorted(spans)


class Names:
    def __init__(self, top):
        with open(os.path.join(top, "crates.txt"), encoding="utf-8") as f:
            self.crates = [line.split(":")[0].strip() for line in f if ":" in line]
        self.library, self.fields, self.seen = set(), set(), collections.Counter()
        self.top = top
        for path in texts(top, self.crates):
            text = read(path)
            if path.endswith(".rt"):
                text = "\n".join(text[a:b] for a, b in clauses(text))
            for m in USE.finditer(text):
                steps = m[1].split(".")
                if steps[0] != "Rattle" or steps[1] not in self.crates:
                    self.library.update(item.split(" as ")[0].strip() for item in m[2].split(","))
            if path.endswith(".antt"):
                self.fields.update(FIELD.findall(text))

    def is_own(self, word):
        return bool(HYPHENED.match(word) or HALF_TURNED.match(word)) and word not in self.library

    def turn(self, word, behind, labels):
        if not self.is_own(word) or word in labels:
            return word
        if behind is not None and labels is not NO_LABELS and not behind[:1].isupper() and (behind in HEADS or behind in HOLDERS or word not in self.fields):
            return word
        self.seen[word] += 1
        return respelled(word)

    def code(self, text, labels):
        out, at = [], 0
        for m in re.finditer(WORD, text):
            out += [text[at : m.start()], self.turn(m[0], self.before(text, m.start()), labels)]
            at = m.end()
        return "".join(out) + text[at:]

    @staticmethod
    def before(text, at):
        """The word before a dot that ends right here, as in `a.b.c` behind `a.b`."""
        if text[at - 1 : at] != ".":
            return None
        m = re.search("(" + WORD + r")?\.$", text[max(0, at - 200) : at])
        return (m[1] or "") if m else ""

    def antt(self, path, text):
        labels = NO_LABELS
        if MADE.search(path):
            made = [item.split(" as ")[0].strip() for m in MADE_USE.finditer(text) for item in m[1].split(",")]
            labels = frozenset(LABEL.findall(text) + made) or frozenset([""])
        out, at = [], 0
        for m in QUIET.finditer(text):
            out += [self.code(text[at : m.start()], labels), self.spans(m[0]) if m[0].startswith("--") else m[0]]
            at = m.end()
        return "".join(out) + self.code(text[at:], labels)

    def spans(self, text):
        return re.sub(r"`[^`\n]+`", lambda m: self.code(m[0], NO_LABELS), text)

    def source(self, text):
        out, at = [], 0
        for a, b in clauses(text):
            if a >= at:
                out += [text[at:a], self.code(text[a:b], NO_LABELS)]
                at = b
        return "".join(out) + text[at:]


NO_LABELS = frozenset()


def main(argv):
    table = "--table" in argv
    rest = [a for a in argv if a != "--table"]
    top = rest[0] if rest else os.path.join(os.path.dirname(os.path.abspath(__file__)), "..")
    names = Names(top)
    turned = {}
    for path in texts(top, names.crates):
        text = read(path)
        new = names.antt(path, text) if path.endswith(".antt") else names.source(text)
        if new != text:
            turned[path] = new
    known = set(names.seen)
    pages = [os.path.join(top, "README.md")] + [os.path.join(top, "docs", p) for p in sorted(os.listdir(os.path.join(top, "docs"))) if p.endswith(".md") and not p.startswith("PORT")]
    for path in pages:
        text = read(path)
        new = re.sub(r"`[^`\n]+`", lambda m: "`" + re.sub(WORD, lambda w: respelled(w[0]) if w[0] in known else w[0], m[0][1:-1]) + "`", text)
        if new != text:
            turned[path] = new
    if table:
        together = collections.defaultdict(set)
        for word in names.seen:
            together[respelled(word)].add(word)
        for word in sorted(names.seen):
            print(word, respelled(word), *(["TOGETHER"] if len(together[respelled(word)]) > 1 else []))
        return 0
    for path, text in turned.items():
        with open(path, "w", encoding="utf-8") as f:
            f.write(text)
    print(f"respell: {len(names.seen)} names, {len(turned)} files")
    return 0


if __name__ == "__main__":
    raise SystemExit(main(sys.argv[1:]))
