#!/usr/bin/env python3
"""Looks whether what the pages say of the sources is so: check_pages.py [--write].

- In RULES.md each name stands at the line that its link gives: a definition or a function by its name, a row by the text that it begins
  with. `--write` puts the lines right where the text has moved.
- In ARCHITECTURE.md the table of the rooms has each crate of crates.txt once, and no other; a crate that its last column names is one that
  the room stands on, directly or through others.
- README.md has each crate once in its table of promises.
- Each link of a page to a file of the repository leads to one.

What is wrong is printed, a line each, and the status is 1.
"""
import argparse
import os
import re
import sys

sys.dont_write_bytecode = True

TOP = os.path.dirname(os.path.dirname(os.path.abspath(__file__)))
PLACE = re.compile(r"\[(`[^`\]]+`|\"[^\"\]]+\")\]\(\.\./(crates/[^)#]+)#L(\d+)\)")
LINK = re.compile(r"\]\(([^)#:\s]+)(?:#[^)]*)?\)")


def read(path):
    with open(os.path.join(TOP, path), encoding="utf-8") as file:
        return file.read()


def wanted(name, path):
    """What the line has to be at which this name or row stands."""
    word = re.escape(name[1:-1])
    if name.startswith('"'):
        return re.compile(r"# " + word)
    if path.endswith(".rt"):
        return re.compile(rf".*\bfn {word}\b")
    return re.compile(rf"\s*(?:abbrev |unfoldable )?pub (?:record |data |abbrev |unfoldable )*{word}(?:\s|$)")


def is_place(name, path, number):
    lines = read(path).splitlines()
    return 0 < number <= len(lines) and wanted(name, path).match(lines[number - 1])


def places(text):
    """The text with the lines put right, and what stands nowhere."""
    lost = []

    def right(match):
        name, path, number = match.group(1), match.group(2), int(match.group(3))
        if not os.path.exists(os.path.join(TOP, path)):
            lost.append(f"{path} is not there")
            return match.group(0)
        if is_place(name, path, number):
            return match.group(0)
        for at, line in enumerate(read(path).splitlines(), 1):
            if wanted(name, path).match(line):
                lost.append(f"{name} stands at {path}, line {at}, and not {number}")
                return f"[{name}](../{path}#L{at})"
        lost.append(f"{name} does not stand in {path}")
        return match.group(0)

    return PLACE.sub(right, text), lost


def crates():
    """Each crate of crates.txt with those that its line names."""
    found = {}
    for line in read("crates.txt").splitlines():
        line = line.split("#")[0].strip()
        if line:
            head, _, below = line.partition(":")
            found[head.split()[0]] = below.split()
    return found


def below(found, crate):
    """All that a crate stands on."""
    seen, todo = set(), [crate]
    while todo:
        for it in found.get(todo.pop(), ()):
            if it not in seen:
                seen.add(it)
                todo.append(it)
    return seen


def rooms(found):
    """What is wrong in the table of the rooms."""
    rows = re.findall(r"^\| (`[^|]*) \|[^|\n]*\| ([^|\n]*) \|$", read("docs/ARCHITECTURE.md").split("## The rooms")[1].split("\n## ")[0], re.M)
    told = []
    for names, touches in rows:
        names = re.findall(r"`(\w+)`", names)
        told += names
        for it in re.findall(r"`(\w+)`", touches):
            if it not in found:
                yield f"ARCHITECTURE.md: {it} is no crate"
            elif not any(it in below(found, name) or it in names for name in names):
                yield f"ARCHITECTURE.md: {', '.join(names)} does not stand on {it}"
    for name in sorted(set(told) | set(found)):
        if told.count(name) != 1 or name not in found:
            yield f"ARCHITECTURE.md: {name} stands {told.count(name)} times in the table, and {'is' if name in found else 'is not'} in crates.txt"


def promises(found):
    """Crates that README's table has not, or more than once."""
    table = read("README.md").split("| Crate | What it is | Carried by |")[1].split("\n\n")[0]
    told = [name for row in table.splitlines() for name in re.findall(r"`(\w+)`", row.split(" | ")[0])]
    for name in sorted(set(told) | set(found)):
        if told.count(name) != 1 or name not in found:
            yield f"README.md: {name} stands {told.count(name)} times in its table, and {'is' if name in found else 'is not'} in crates.txt"


def links():
    """Links of the pages that lead nowhere."""
    pages = ["README.md"] + ["docs/" + it for it in sorted(os.listdir(os.path.join(TOP, "docs"))) if it.endswith(".md")]
    for page in pages:
        for link in LINK.findall(read(page)):
            if not os.path.exists(os.path.join(TOP, os.path.dirname(page), link)):
                yield f"{page}: {link} is not there"


def main(words=None):
    parser = argparse.ArgumentParser(description=__doc__, formatter_class=argparse.RawDescriptionHelpFormatter)
    parser.add_argument("--write", action="store_true", help="put the lines of RULES.md right")
    arguments = parser.parse_args(words)
    text, lost = places(read("docs/RULES.md"))
    if arguments.write:
        with open(os.path.join(TOP, "docs/RULES.md"), "w", encoding="utf-8") as file:
            file.write(text)
        lost = places(text)[1]
    wrong = [f"RULES.md: {it}" for it in lost] + list(rooms(crates())) + list(promises(crates())) + list(links())
    for it in wrong:
        print(it)
    return 1 if wrong else 0


if __name__ == "__main__":
    sys.exit(main())
