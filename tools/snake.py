#!/usr/bin/env python3
"""Brings the repository's own definitions and lemmas to today's spelling: snake case, a dash only between two names.

usage: python3 tools/snake.py [--check] [--list]      at the top of the repository, once, right after the kit's port.py

A name that crates/*/specs or crates/*/proofs declare turns where it has a small first letter and a capital behind it, or a dash:
  turnOn -> turn_on, length-bytesOf -> length-bytes_of (both are names), or-true -> or_true, same-arms -> same_arms, good-C -> good_c.
It turns in .antt files, in clauses, `ghost use` items and code spans of .rt files, in must-fail edits, and in code spans of pages.
Functions of src/, exported names, strings, inputs and outputs keep their names. --check writes nothing; --list prints old and new.
Two names that would fall together are told apart by FALLEN below; any others are printed, and nothing is written.
"""
import collections
import os
import re
import sys

WORD = r"[^\s(){}.;,@\"«»`]+"
DECL = re.compile(r"\s*(?:(?:abbrev|pub|unfoldable|private|mutual|opaque|infix[lr]?|data|record|ruleset|module) )*(" + WORD + r"(?: " + WORD + r")*) :(?: |$)")
HEAD = re.compile(r"\s*(?:(?:abbrev|pub) )*(?:data|record|ruleset) (" + WORD + ")")
FIELD = re.compile(r"^ +pub (" + WORD + ") :")
# names that would fall together with another
FALLEN = {"item-u": "item_of_u", "sound-u": "sound_of_u"}
# lemmas that already have the name that a definition turns to
LEMMAS = "from_end held_by kept_in not_in not_listed part_length past_index plain_size read_answer rest_in words_left first_small pairs_of".split()
SPANS = re.compile(r"(`+)([^`\n]+)\1")


def files(kinds, tops):
    for top in tops:
        if os.path.isfile(top):
            yield top
            continue
        for folder, dirs, names in os.walk(top):
            dirs[:] = sorted(d for d in dirs if d not in ("out", ".git", "target", "node_modules"))
            for n in sorted(names):
                if n.endswith(kinds):
                    yield os.path.join(folder, n)


def read(path):
    with open(path, encoding="utf-8") as f:
        return f.read()


def snake(part):
    part = re.sub(r"(?<=[a-z0-9])(?=[A-Z])|(?<=[A-Z])(?=[A-Z][a-z])", "_", part)
    return part.lower()


def declared():
    """What the repository declares, the fields among it, and what it brings from the kit."""
    own, fields, brought = collections.defaultdict(set), set(), set()
    for p in files((".antt",), ["crates"]):
        if p.endswith("Proof.antt"):
            continue
        for line in read(p).split("\n"):
            code = line.split("--")[0] if line.lstrip().startswith("--") else line
            if not code.strip():
                continue
            m = re.match(r"\s*(?:pub )?use (\S+?)\.\{(.*)\}", code)
            if m:
                if not re.match(r"Rattle\.(?!std|core)", m[1]):
                    for w in m[2].split(","):
                        brought.add(w.strip().split(" as ")[-1])
                continue
            m = DECL.match(code)
            if m:
                for w in m[1].split():
                    own[w].add(p)
            m = FIELD.match(code)
            if m:
                fields.add(m[1])
            m = HEAD.match(code)
            if m:
                own[m[1]].add(p)
    return own, fields, brought


def table(own, brought):
    plain = {w for w in own if "-" not in w} | {w for w in brought if "-" not in w}
    rows = {}
    for w in own:
        if w in brought or "◌" in w or not re.match(r"[a-z]", w):
            continue
        if "-" not in w and not re.search(r"[A-Z]", w):
            continue
        parts = w.split("-")
        out = ""
        for i, part in enumerate(parts):
            keeps = part in plain or part[:1].isupper() and len(part) > 2 and part in own
            new = part if keeps and len(part) > 2 and part[:1].isupper() else snake(part)
            if i:
                before = parts[i - 1]
                both = keeps and (before in plain) and len(part) > 1 and len(before) > 1
                out += "-" if both else "_"
            out += new
        out = FALLEN.get(w, out)
        if out != w:
            rows[w] = out
    for w in LEMMAS:
        rows[w] = w + "_lem"
    # a lemma that would have its definition's name gets `_lem`
    there = {new for old, new in rows.items() if "-" not in old} | {w for w in own if "-" not in w and w not in rows}
    for old, new in rows.items():
        if "-" in old and "-" not in new and new in there:
            rows[old] = new + "_lem"
    return rows


def together(rows, own, brought):
    """Names that would fall together: two that turn into one, or one that turns into a name that stands."""
    bad = []
    by_new = collections.defaultdict(set)
    for old, new in rows.items():
        by_new[new].add(old)
        if (new in own or new in brought) and new not in rows:
            bad.append((new, old, new))
    for new, olds in by_new.items():
        if len(olds) > 1:
            bad.append((new, *sorted(olds)))
    return sorted(set(bad))


class Turner:
    def __init__(self, rows, fields, functions):
        self.rows, self.fields, self.functions = rows, fields, functions

    def words(self, text, proof=False):
        """Each whole word of the table; behind a dot only a field or a member of a module."""

        def one(m):
            w = m[0]
            new = self.rows.get(w)
            if new is None:
                return w
            before = text[m.start() - 1 : m.start()] if m.start() else ""
            if before == "." and "-" in w and (proof and w in self.functions or w not in self.fields):
                head = re.search(r"(" + WORD + r")\.$", text[: m.start()])
                if not (head and head[1][:1].isupper()):
                    return w
            return new

        return re.sub(WORD, one, text)

    def spans(self, text):
        def span(m):
            return m[1] + self.words(m[2]) + m[1]

        return SPANS.sub(span, text)

    def antt(self, text, proof):
        out = []
        for line in text.split("\n"):
            at = 0 if line.lstrip().startswith("--") else line.find(" -- ")
            if at < 0:
                out.append(self.words(line, proof))
            else:
                out.append(self.words(line[:at], proof) + self.comment(line[at:]))
        return "\n".join(out)

    def comment(self, text):
        """In a comment: code spans, and words that no prose has."""
        text = self.spans(text)
        return re.sub(WORD, lambda m: self.rows.get(m[0], m[0]) if re.match(r"[a-z][a-z0-9]*(?:[A-Z][a-z0-9]*)+$", m[0]) else m[0], text)

    def source(self, text):
        out = []
        for line in text.split("\n"):
            at = line.find("//")
            code, rest = (line, "") if at < 0 else (line[:at], line[at:])
            out.append(self.words(code) + self.comment(rest))
        return "\n".join(out)

    def edit(self, text):
        out = []
        antt = False
        for line in text.split("\n"):
            if line.startswith("file:"):
                antt = line.strip().endswith(".antt")
            out.append(self.words(line) if re.match(r"(old|new):", line) else self.comment(line) if not line.startswith("file:") else line)
        return "\n".join(out)


def main(argv):
    own, fields, brought = declared()
    rows = table(own, brought)
    bad = together(rows, own, brought)
    if "--list" in argv:
        for old, new in sorted(rows.items()):
            print(f"{old}\t{new}")
    if bad:
        for b in bad:
            print("falls together:", *b, file=sys.stderr)
        return 1
    functions = set()
    for p in files((".rt",), ["crates"]):
        functions |= {w.replace("_", "-") for w in re.findall(r"\bfn (\w+)", read(p))}
    turner = Turner(rows, fields, functions)
    count = 0
    for p in files((".antt", ".rt", ".edit", ".md"), ["crates", "docs", "README.md", "compare", "second", "host", "tests"]):
        old = read(p)
        if p.endswith(".antt"):
            new = turner.antt(old, p.endswith("Proof.antt"))
        elif p.endswith(".rt"):
            new = turner.source(old)
        elif p.endswith(".edit"):
            new = turner.edit(old)
        else:
            new = turner.spans(old)
        if new != old:
            count += 1
            if "--check" not in argv:
                with open(p, "w", encoding="utf-8") as f:
                    f.write(new)
    print(f"{len(rows)} names, {count} files")
    return 0


if __name__ == "__main__":
    raise SystemExit(main(sys.argv[1:]))
