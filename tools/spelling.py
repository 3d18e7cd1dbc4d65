#!/usr/bin/env python3
"""Turns this repository's own definitions, fields and lemmas to the spelling of today's Rattle, by the table spelling.tsv beside it.

usage: spelling.py [ROOT]    ROOT is the repository's top, the folder above this one's if it is not given

A row of the table is an old name, a tab, and the new one. Whole words turn: in specs/ and proofs/, in the clauses and ghost uses of src/, in
the texts of must-fail edits, and in the code spans of pages. In the prose of a comment a word turns where its spelling shows that it is a
name (capitals within it), and elsewhere where it stands between backticks. It is run once: some new names are old names of something else.
"""
import glob
import os
import re
import sys

WORD = re.compile(r"[^\s(){}.;,@\"«»`]+")
SPAN = re.compile(r"`[^`\n]*`")


def is_camel(word):
    return re.search(r"[a-z0-9][A-Z]", word) and "-" not in word


class Turner:
    def __init__(self, table):
        self.table = table

    def code(self, text):
        return WORD.sub(lambda m: self.table.get(m[0], m[0]), text)

    def prose(self, text):
        def one(m):
            word = m[0]
            tail = re.search(r"[:!?']*$", word)[0]
            bare = word[: len(word) - len(tail)]
            return self.table[bare] + tail if bare in self.table and is_camel(bare) else word

        text = SPAN.sub(lambda m: "`" + self.span(m[0][1:-1]) + "`", text)
        at, out = 0, []
        for m in SPAN.finditer(text):
            out += [WORD.sub(one, text[at : m.start()]), m[0]]
            at = m.end()
        return "".join(out) + WORD.sub(one, text[at:])

    def span(self, text):
        return text if text.startswith(("$ ", "./", "rt ", "git ")) or "/" in text.split(" ")[0] else self.code(text)

    def commented(self, text, mark):
        """Code with comments that begin with the mark and end with the line."""
        lines = []
        for line in text.split("\n"):
            m = re.search(r"(^|(?<=\s))" + re.escape(mark), line)
            at = m.start() if m else len(line)
            lines.append(self.code(line[:at]) + self.prose(line[at:]))
        return "\n".join(lines)

    def edit(self, text):
        return "\n".join(self.code(l) if re.match(r"(old|new): ", l) else self.prose(l) for l in text.split("\n"))

    def page(self, text):
        parts = re.split(r"(^```.*?^```)", text, flags=re.S | re.M)
        return "".join(self.commented(p, "--") if p.startswith("```antt") else p if p.startswith("```") else self.prose(p) for p in parts)


def main(root):
    here = os.path.dirname(os.path.abspath(__file__))
    with open(os.path.join(here, "spelling.tsv"), encoding="utf-8") as f:
        turner = Turner(dict(line.rstrip("\n").split("\t") for line in f))
    kinds = [
        ("crates/*/specs/**/*.antt", lambda t: turner.commented(t, "--")),
        ("crates/*/proofs/**/*.antt", lambda t: turner.commented(t, "--")),
        ("crates/*/src/**/*.rt", lambda t: turner.commented(t, "//")),
        ("crates/*/must-fail/*.edit", turner.edit),
        ("**/*.md", turner.page),
    ]
    with open(os.path.join(root, "crates/plant/specs/Questions.antt"), encoding="utf-8") as f:
        if "modelQuestions" not in f.read():
            sys.exit("turned already")
    changed = 0
    for pattern, turn in kinds:
        for path in sorted(glob.glob(os.path.join(root, pattern), recursive=True)):
            if path.endswith("docs/PORT.md"):
                continue
            with open(path, encoding="utf-8") as f:
                old = f.read()
            new = turn(old)
            if new != old:
                with open(path, "w", encoding="utf-8") as f:
                    f.write(new)
                changed += 1
    print(f"{changed} files changed")


if __name__ == "__main__":
    main(sys.argv[1] if len(sys.argv) > 1 else os.path.join(os.path.dirname(os.path.abspath(__file__)), ".."))
