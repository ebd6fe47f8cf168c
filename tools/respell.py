#!/usr/bin/env python3
"""Brings the repository's own definitions and lemmas to today's spelling: words in snake case, facts and types in camel case.

usage: python3 tools/respell.py [FOLDER]        once, right after the kit's own script

A name is the repository's own if a line of specs/ or proofs/ declares it, and an answer to a generated goal is not one;
or if an import gives it by 'as'.
Functions of src/, generated names, strings and file names stay. Comments and documents follow where a name is in
backquotes or begins with a capital.
"""
import collections
import os
import re
import sys

ROOT = sys.argv[1] if len(sys.argv) > 1 else "."
WORD = re.compile(r"(?<![\w'₀-₉-])[^\W\d][\w'₀-₉]*(?:-[\w'₀-₉]+)+(?![\w'₀-₉-])")
DECLARED = re.compile(r"^[ \t]*(?:\| *)?(?:(?:abbrev|unfoldable|pub|data|record|module|infixl|infixr|infix) +)*(\S+)((?: +\([^\n]*?\)| +\{[^\n]*?\})*) +:(?! *(?:goal|needs[-_]of)\.)", re.M)
ALIAS = re.compile(r" as (\S+?)(?=[,;}\s])")
TEXT = re.compile(r'"(?:[^"\\\n]|\\.)*"')


def files(*ends):
    for top in ("crates", "docs", "examples"):
        for folder, dirs, names in os.walk(os.path.join(ROOT, top)):
            dirs[:] = sorted(d for d in dirs if d not in ("out", ".git"))
            for name in sorted(names):
                if name.endswith(ends):
                    yield os.path.join(folder, name)
    if ".md" in ends:
        yield os.path.join(ROOT, "README.md")


def read(path):
    with open(path, encoding="utf-8") as f:
        return f.read()


def respelled(name):
    if name[0].isupper():
        return "".join(part[:1].upper() + part[1:] for part in name.split("-"))
    return name.replace("-", "_")


def own_names():
    found = set()
    for path in files(".antt", ".rt"):
        text = read(path)
        declared = [m.group(1) for m in DECLARED.finditer(text)] if path.endswith(".antt") else []
        uses = "\n".join(line for line in text.split("\n") if re.match(r"(ghost )?use ", line)) + "\n"
        found.update(name for name in declared + ALIAS.findall(uses) if WORD.fullmatch(name))
    return found


def code(line, names):
    """A line of antt, Rattle or an edit: all but its strings and its comment."""
    out, end = [], 0
    for match in TEXT.finditer(line):
        out += [swap(line[end:match.start()], names), match.group()]
        end = match.end()
    return "".join(out) + swap(line[end:], names)


def swap(text, names):
    return WORD.sub(lambda m: respelled(m.group()) if m.group() in names else m.group(), text)


def prose(text, names):
    capital = {n for n in names if n[0].isupper()}
    quoted = re.sub(r"`[^`\n]+`", lambda m: swap(m.group(), names), text)
    return swap(quoted, capital)


def turned(path, text, names):
    if path.endswith(".md"):
        return prose(text, names)
    mark = "--" if path.endswith(".antt") else "//"
    lines = []
    for line in text.split("\n"):
        # a comment begins a line or stands behind a blank
        at = re.search(r"(?:^|\s)" + mark + r"(?=\s|$)", TEXT.sub(lambda m: " " * len(m.group()), line))
        at = at.start() if at else len(line)
        lines.append(code(line[:at], names) + prose(line[at:], names))
    return "\n".join(lines)


def main():
    names = own_names()
    to = collections.defaultdict(set)
    for name in names:
        to[respelled(name)].add(name)
    used = set()
    for path in files(".antt"):
        used |= set(re.findall(r"(?<![\w.'-])[^\W\d][\w']*(?![\w'-])", re.sub(r"--.*", "", read(path))))
    for name, olds in sorted(to.items()):
        if len(olds) > 1 or name in used:
            print(f"falls together: {name}: {', '.join(sorted(olds))}", file=sys.stderr)
    count = 0
    for path in list(files(".antt", ".rt", ".edit", ".md")):
        text = read(path)
        new = turned(path, text, names)
        if new != text:
            count += 1
            with open(path, "w", encoding="utf-8") as f:
                f.write(new)
    print(f"{len(names)} names, {count} files")


main()
