#!/usr/bin/env python3
"""Functions of src/ whose bodies are the same but for names, types and numbers: candidates for one generic function.

    tools/twins.py [ROOT]            a line for each group; only bodies of at least MIN words count
    tools/twins.py --near [ROOT]     and the pairs that are nearly alike

Two bodies are alike if they have the same keywords, operators and punctuation, and their names and numbers are used in the same pattern.
They are nearly alike if, names and numbers aside, at least NEAR of their words stand in the same order, in bodies of at least MIN_NEAR words.
"""
import collections
import difflib
import glob
import os
import re
import sys

MIN = 25  # words of a body: shorter ones are alike by chance
MIN_NEAR = 60
NEAR = 0.9
KEYWORDS = set("as break const continue else enum false fn for if impl in let loop match mut pub ref return self Self struct trait true type unsafe use where while".split())
WORD = re.compile(r"[A-Za-z_][A-Za-z_0-9]*|\d[\w.]*|[^\sA-Za-z_0-9]")


def functions(text):
    """The name, the line and the body of each function."""
    for start in re.finditer(r"^ *(?:pub )?(?:extern \"C\" )?fn (\w+)", text, re.M):
        body = text.find("\n{\n", start.end())
        inner = re.compile(r"^( *)\{$|\{$", re.M)
        opened = inner.search(text, start.end())
        # the body is the block that begins on a line of its own, or ends the line of the head
        while opened and re.match(r"^ *(requires|ensures)", text[text.rfind("\n", 0, opened.start()) + 1:opened.end()]):
            opened = inner.search(text, opened.end())
        if not opened:
            continue
        depth, at = 0, opened.end() - 1
        while at < len(text):
            if text[at] == "{":
                depth += 1
            elif text[at] == "}":
                depth -= 1
                if depth == 0:
                    break
            at += 1
        yield start.group(1), text.count("\n", 0, start.start()) + 1, text[opened.end() - 1:at + 1]


def shape(body):
    body = re.sub(r"//[^\n]*", "", body)
    names, words = {}, []
    for word in WORD.findall(body):
        if word in KEYWORDS or not re.match(r"\w", word):
            words.append(word)
        else:
            words.append("#%d" % names.setdefault(word, len(names)))
    return tuple(words)


def near(a, b):
    if min(len(a), len(b)) < NEAR * max(len(a), len(b)):
        return False
    return difflib.SequenceMatcher(None, a, b, autojunk=False).ratio() >= NEAR


def main(root, pairs):
    groups = collections.defaultdict(list)
    for path in sorted(glob.glob(os.path.join(root, "crates/*/src/*.rt"))):
        text = open(path).read()
        for name, line, body in functions(text):
            words = shape(body)
            if len(words) >= MIN:
                groups[words].append("%s:%d %s" % (os.path.relpath(path, root), line, name))
    alike = [group for group in groups.values() if len(group) > 1]
    for group in sorted(alike):
        print("; ".join(group))
    print("%d groups, %d functions" % (len(alike), sum(map(len, alike))))
    if not pairs:
        return
    plain = [(tuple("#" if w[0] == "#" and len(w) > 1 else w for w in words), group[0]) for words, group in groups.items() if len(words) >= MIN_NEAR]
    found = [(a[1], b[1]) for i, a in enumerate(plain) for b in plain[i + 1:] if near(a[0], b[0])]
    for a, b in found:
        print("%s ~ %s" % (a, b))
    print("%d pairs nearly alike" % len(found))


if __name__ == "__main__":
    given = [a for a in sys.argv[1:] if a != "--near"]
    main(given[0] if given else ".", "--near" in sys.argv)
