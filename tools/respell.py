#!/usr/bin/env python3
"""Brings this repository's own definitions and lemmas to snake case, once, right after port.py of the Rattle kit.

usage: python3 tools/respell.py [--check] [FOLDER]     FOLDER is the repository's top; --check writes nothing

A definition wordAt becomes word_at, a lemma word-by-parts becomes word_by_parts. A lemma that would have its function's name gets _lem.
Names of the kit's libraries, of types and modules, of goals, and of functions in src/ stay. Strings stay.
"""

import os
import re
import sys

NAME = r"[^\s(){}.;,\[\]@\"«»:]+"
TOKEN = re.compile(r"[^\s(){}.;,\[\]@\"«»]+")
HEAD = re.compile(r"^\s*(?:(?:unfoldable|abbrev|pub|mutual)\s+)*((?:%s\s+)*%s)\s*:\s+(\S.*)?$" % (NAME, NAME))
USE = re.compile(r"^\s*(?:pub\s+|ghost\s+)*use\s+([^\s;{]+?)(?:\.\{([^}]*)\})?(?:\s+as\s+\S+)?;?\s*$", re.M)
GOAL = re.compile(r"(?:tie\.Need-|goal\.)")
SNAKE_HUMP = re.compile(r"(?<=[a-z0-9])([A-Z])")
SNAKE_DASH = re.compile(r"(?<=[a-z0-9′'])-(?=[a-zA-Z0-9])")
CAMEL = re.compile(r"[a-z][a-z0-9]*(?:[A-Z][a-z0-9]*)+['′]*$")
# Lemmas that port.py brought to snake case, where a function has that name now.
TURNED_LEMMAS = ("is_down", "all_types", "all_held", "goes_on", "pos_of")


def snake(name):
    return SNAKE_DASH.sub("_", SNAKE_HUMP.sub(lambda m: "_" + m.group(1).lower(), name))


def files(root, ends):
    for folder, dirs, names in os.walk(root):
        dirs[:] = sorted(d for d in dirs if d not in ("out", ".git"))
        for name in sorted(names):
            if name.endswith(ends):
                yield os.path.join(folder, name)


def read(path):
    with open(path, encoding="utf-8") as f:
        return f.read()


def declared(root, own):
    """The names that our files declare, and by file those that a kit's library gives it."""
    names, outside = set(), {}
    for path in files(os.path.join(root, "crates"), (".antt", ".rt")):
        text = read(path)
        given = set()
        for m in USE.finditer(text):
            crate = re.match(r"Rattle\.(\w+)", m.group(1))
            if not (crate and crate.group(1) in own) and m.group(2):
                given |= {x.split()[0] for x in m.group(2).split(",") if x.split()}
        outside[path] = given
        if path.endswith(".rt"):
            continue
        for line in re.sub(r"--[^\n]*", "", text).split("\n"):
            m = HEAD.match(line)
            if m and not GOAL.match(m.group(2) or ""):
                names |= set(m.group(1).split()) - given
            names |= {t for t in TOKEN.findall(line) if CAMEL.match(t)} - given
    return names, outside


def table(names):
    humps = {n for n in names if CAMEL.match(n)}
    dashes = {n for n in names if n[:1].islower() and SNAKE_DASH.search(n) and n not in humps}
    rows = {n: snake(n) for n in humps}
    taken = set(rows.values()) | {n for n in names if n not in dashes}
    for n in sorted(dashes):
        new = snake(n)
        rows[n] = new + "_lem" if new in taken else new
    rows |= {n: n + "_lem" for n in TURNED_LEMMAS if n in rows.values()}
    return rows


def turn(text, rows, comment, given):
    def code(part, rows):
        out, end = [], 0
        for m in TOKEN.finditer(part):
            word = m.group()
            behind = part[max(0, m.start() - 5):m.start()]
            stays = word in given or behind.endswith(("tie.", "goal."))
            new = rows.get(word, word)
            if behind.endswith(".") and word in rows:
                new = snake(word)  # a field, or a function of src/ whose facts a proof cites
            out += [part[end:m.start()], word if stays else new]
            end = m.end()
        return "".join(out + [part[end:]])

    def prose(part):
        head = re.match(r"(?:--|//) {3}(\S.*?) {2,}", part)
        if head:
            part = part[:head.start(1)] + code(head.group(1), rows) + part[head.end(1):]
        part = re.sub(r"(?<![\w-])[a-z][a-z0-9]*(?:[A-Z][a-z0-9]*)+(?![\w-])", lambda m: rows.get(m.group(), m.group()), part)
        return re.sub(r"`[^`\n]+`", lambda m: code(m.group().replace("`", " ` "), rows).replace(" ` ", "`"), part)

    out = []
    for part in re.split(comment, text):
        if part.startswith(("--", "//")):
            out.append(prose(part))
        elif part.startswith('"'):
            out.append(part)
        else:
            out.append(code(part, rows))
    return "".join(out)


def main(argv):
    check = "--check" in argv
    argv = [a for a in argv if a != "--check"]
    root = os.path.abspath(argv[0] if argv else ".")
    own = set(os.listdir(os.path.join(root, "crates")))
    names, outside = declared(root, own)
    rows = table(names)
    by_new = {}
    for old, new in rows.items():
        by_new.setdefault(new, []).append(old)
    for new, olds in sorted(by_new.items()):
        if len(olds) > 1:
            print("fall together:", new, sorted(olds))
    changed = 0
    rust = {n: v for n, v in rows.items() if n not in TURNED_LEMMAS}
    for path in files(os.path.join(root, "crates"), (".antt", ".rt")):
        text = read(path)
        antt = path.endswith(".antt")
        new = turn(text, rows if antt else rust, r"(--[^\n]*)" if antt else r'(//[^\n]*|"(?:[^"\\\n]|\\.)*")', outside[path])
        if new != text:
            changed += 1
            if not check:
                with open(path, "w", encoding="utf-8") as f:
                    f.write(new)
    pages = [os.path.join(root, n) for n in ("README.md", "CHANGELOG.md")] + list(files(os.path.join(root, "docs"), ".md"))
    for path in pages:
        if os.path.isfile(path) and not path.endswith("docs/PORT.md"):
            text = read(path)
            new = turn("--" + text, rows, r"\A(--(?s:.*))\Z", set())[2:]
            new = re.sub(r"`[^`\n]+`", lambda m: re.sub(r"(?<![\w-])%s(?![\w-])" % CAMEL.pattern[:-1], lambda w: snake(w.group()), m.group()), new)
            if new != text:
                changed += 1
                if not check:
                    with open(path, "w", encoding="utf-8") as f:
                        f.write(new)
    print(f"{len(rows)} names, {changed} files")


main(sys.argv[1:])
