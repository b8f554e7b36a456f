#!/usr/bin/env python3
"""Respells the names of this repository's own definitions and lemmas, once, after port.py: words in camel case become snake case.

usage: python3 tools/respell.py [--list]       at the top of the repository

It goes by text: a name, or a part of one between dashes, that is defined in an .antt file of crates/ and begins with a small letter and has a
capital. Names of types, of what Rust code has, of C, strings, inputs and outputs stay. --list only prints what would be renamed, and what would
fall together.
"""
import os
import re
import sys

DEFINED = re.compile(r"^\s*(?:(?:abbrev|unfoldable|pub|opaque|record|data)\s+)*([^\s:(){}]+)(?:\s+[({][^)}]*[)}])*\s+:\s")
ALIAS = re.compile(r"\bas ([a-z]\w*)")
SEGMENT = re.compile(r"(?<![\w'])([a-z][a-z0-9]*[A-Z][A-Za-z0-9]*)(?=[₀-₉]*(?![\w']))")
STRING = re.compile(r'b?"(?:[^"\\]|\\.)*"')


def files(root):
    for folder, dirs, names in os.walk(os.path.join(root, "crates")):
        dirs[:] = sorted(d for d in dirs if d not in ("out", "must-fail"))
        for name in sorted(names):
            if name.endswith((".rt", ".antt")):
                yield os.path.join(folder, name)


# Names that would fall together with another of their file, and what they become first: (the end of the file's path, name, other name).
FIRST = [
    ("identification/proofs/RefusalNumbers.antt", "by_number", "by_each_number"),
    ("identification/proofs/AcceptedExactlyWhen.antt", "by_number", "by_each_number"),
    ("message/proofs/Grouped.antt", "one_more", "one_more-found"),
    ("queue/proofs/Counting.antt", "one_more", "one-more"),
    ("cutting/proofs/Entries.antt", "end_after", "end-after"),
    ("queue/proofs/Entries.antt", "record_of", "record-of"),
]


def snake(word):
    return re.sub(r"(?<=[a-z0-9])([A-Z])", lambda m: "_" + m.group(1).lower(), word)


def main():
    texts = {p: open(p, encoding="utf-8").read() for p in files(".")}
    own, words = set(), set()
    for path, text in texts.items():
        words |= set(re.findall(r"[\w']+", text))
        if path.endswith(".antt"):
            for line in text.split("\n"):
                m = DEFINED.match(line)
                if m and not line.lstrip().startswith(("--", "use ")):
                    own |= set(SEGMENT.findall(m.group(1)))
                # an alias of an import
                if line.startswith("use "):
                    own |= {a for a in ALIAS.findall(line) if SEGMENT.fullmatch(a)}
    own |= {"offsetRows", "spanOne", "spanThree", "toRecord"}
    turned = {w: snake(w) for w in own}
    turned.update({"getD": "get_or", "messageForCTable": "message_for_c_table"})
    together = sorted(w for w in turned if turned[w] in words)
    if "--list" in sys.argv:
        print("renamed:", " ".join(f"{a}→{b}" for a, b in sorted(turned.items())))
        print("fall together:", " ".join(f"{a}→{turned[a]}" for a in together))
        rest = set()
        for p, t in texts.items():
            rest |= {(w) for w in SEGMENT.findall(t) if w not in turned}
        print("left:", " ".join(sorted(rest)))
        return
    for end, name, other in FIRST:
        for path in texts:
            if path.endswith(end):
                texts[path] = re.sub(rf"(?<![\w.'-]){name}(?![\w'-])", other, texts[path])
    put = lambda t: SEGMENT.sub(lambda m: turned.get(m.group(1), m.group(1)), t)
    for path, text in texts.items():
        if path.endswith(".rt"):
            at, out = 0, []
            for m in STRING.finditer(text):
                out += [put(text[at:m.start()]), m.group(0)]
                at = m.end()
            new = "".join(out) + put(text[at:])
        else:
            new = put(text)
        if new != open(path, encoding="utf-8").read():
            open(path, "w", encoding="utf-8").write(new)


main()
