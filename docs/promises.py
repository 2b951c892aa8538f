#!/usr/bin/env python3
"""Lists what the gate holds the repository to: clauses, edits that must be refused, and rows of tests and programs.

    docs/promises.py                  # all of them, one a line, sorted
    docs/promises.py --against REV    # what REV has and these files have not, and the other way round

- A clause is an `ensures` of a public call: of a `pub fn`, or of a method of a `pub trait` or of a trait's `impl`. It is named by its crate, its
  file, its function, and its name, or its number among those without a name.
- An edit is a file of a crate's must-fail/.
- A row is a test function, or what a program of the gate is given and answers: a line of its stdin, or a request of a connection, with the
  comment or title above it.

With `--against` a line that begins with `-` is only in REV, and one that begins with `+` only here; a clause that was changed has both. A row
that became one of another crate is both too. The status is 1 where a clause is gone.
"""
import argparse
import io
import os
import re
import subprocess
import sys
import tarfile
from collections import Counter

TOP = os.path.dirname(os.path.dirname(os.path.abspath(__file__)))
COMMENT = r"//[^\n]*|/\*.*?\*/"
TEXT = r"""b?r(#*)".*?"\1|b?"(?:\\.|[^"\\])*"|b?'(?:\\.[^']*|[^\\'\n])'"""
SKIPPED = re.compile(f"({COMMENT})|(?:{TEXT.replace(chr(92) + '1', chr(92) + '2')})", re.S)
ITEM = re.compile(r"\b(impl|trait|mod|fn)\b|[{}]")
CLAUSE = re.compile(r"\b(requires|ensures)\s*(\w*)\s*\Z")
VISIBLE = re.compile(r"(?:\A|[\s{};\]])pub\s+(?:const\s+|unsafe\s+)*\Z")
TEST = re.compile(r"#\[test\](?:\s*#\[[^\n]*\])*\s*(?:pub\s+)?fn\s+(\w+)")
CONNECTION = re.compile(rb"(\d+) (\d+|growth) (\d+) ([^\n]*)\n")
REQUEST = re.compile(r"(?<![A-Z])(?=[A-Z]+ [^ \n]* HTTP/)")


# ---- the files


def files_here():
    """The files of the crates, by their paths from the top."""
    found = {}
    for at, folders, names in os.walk(os.path.join(TOP, "crates")):
        folders[:] = [it for it in folders if it != "out"]
        for path in (os.path.join(at, name) for name in names):
            with open(path, "rb") as file:
                found[os.path.relpath(path, TOP)] = file.read()
    with open(os.path.join(TOP, "crates.txt"), "rb") as file:
        found["crates.txt"] = file.read()
    return found


def files_of(revision):
    packed = subprocess.run(["git", "archive", revision, "crates", "crates.txt"], cwd=TOP, stdout=subprocess.PIPE)
    if packed.returncode:
        sys.exit(2)
    with tarfile.open(fileobj=io.BytesIO(packed.stdout)) as pack:
        return {it.name: pack.extractfile(it).read() for it in pack if it.isfile()}


def crates_of(files):
    lines = (line.partition("#")[0] for line in files["crates.txt"].decode().splitlines())
    return [line.split(":")[0].split()[0] for line in lines if line.strip()]


def sources_of(files, crate):
    """The crate's files of code, by their paths below src/, and those of them that only tests have."""
    begin = f"crates/{crate}/src/"
    sources = {path[len(begin) : -3]: data.decode() for path, data in files.items() if path.startswith(begin) and path.endswith(".rt")}
    tests = set()
    for path, text in sources.items():
        beside = os.path.dirname(path) if path in ("lib", "main") else path
        for name in re.findall(r"#\[cfg\(test\)\]\s*(?:pub\s+)?mod\s+(\w+)\s*;", text):
            root = os.path.join(beside, name)
            tests |= {it for it in sources if it == root or it.startswith(root + "/")}
    return sources, tests


# ---- clauses


def blank(found):
    return re.sub(r"[^\n]", " ", found[0])


def brace_end(text, at):
    """The place behind the brace that closes the one at this place."""
    depth = 0
    for brace in re.finditer(r"[{}]", text[at:]):
        depth += 1 if brace[0] == "{" else -1
        if not depth:
            return at + brace.end()
    sys.exit(f"a brace is not closed: {text[at : at + 60]!r}")


def without_parameters(header):
    """The header of an `impl` without its own type parameters, which stand before the first type."""
    depth = 0
    for place, mark in enumerate(re.sub(r"[-=]>", "  ", header)):
        depth += (mark == "<") - (mark == ">")
        if not depth:
            return header[place + 1 :].strip() if mark == ">" else header
    return header


def scope_of(word, header):
    """What the functions of an `impl`, a `trait` or a `mod` are named by, and whether all of them are public."""
    header = " ".join(header.partition(" where ")[0].split())
    if word == "impl":
        trait, is_of_trait, kind = without_parameters(header).rpartition(" for ")
        name = re.match(r"[\w:]*", kind)[0] or kind
        return (f"{name} as {trait}", True) if is_of_trait else (name, False)
    return re.match(r"\s*(\w*)", header)[1], False


def clauses_of(source):
    """The clauses of the public functions of a file: function, clause and text."""
    text = SKIPPED.sub(lambda it: blank(it) if it[1] else it[0], source)
    shape = SKIPPED.sub(blank, source)
    scopes, at = [], 0
    while item := ITEM.search(shape, at):
        word, at = item[1], item.end()
        if item[0] == "}":
            scopes.pop()
        elif item[0] == "{":
            at = brace_end(shape, item.start())
        elif word == "fn":
            name = re.match(r"\s+(\w+)", shape[at:])
            if name:
                is_public = bool(scopes and scopes[-1][1] or VISIBLE.search(shape, max(0, item.start() - 60), item.start()))
                label = "::".join([*(it[0] for it in scopes), name[1]])
                at, found = contract_of(text, shape, at)
                yield from ((label, *it) for it in found if is_public)
        else:
            ends = re.compile(r"[{;]").search(shape, at)
            if ends[0] == "{":
                name, is_public = scope_of(word, shape[at : ends.start()])
                scopes.append((name, is_public or word == "trait" and bool(VISIBLE.search(shape, 0, item.start()))))
            at = ends.end()


def contract_of(text, shape, at):
    """Reads a function from behind its word `fn`: the place behind it, and its clauses."""
    found, depth, begin = [], 0, at
    while True:
        mark = re.compile(r"[(\[{;)\]]").search(shape, at)
        at = mark.end()
        if mark[0] in "([":
            depth += 1
        elif mark[0] in ")]":
            depth -= 1
        elif depth:
            continue
        elif mark[0] == ";":
            return at, found
        else:
            at = brace_end(shape, mark.start())
            clause = CLAUSE.search(shape[begin : mark.start()])
            if not clause:
                return at, found
            if clause[1] == "ensures":
                number = 1 + sum(name.isdigit() for name, _ in found)
                found.append((clause[2] or str(number), " ".join(text[mark.end() : at - 1].split())))
            begin = at


# ---- rows


def rows_under(crate, text):
    """A row for each line that is answered, under the comment above it."""
    heading = ""
    for line in text.splitlines():
        if line.startswith("# ") and crate != "lines_table":
            heading = line
        elif crate == "lines_table" or line.strip() and line != "= new" and not line.startswith("@ "):
            yield f"{heading} | {line}" if heading else line


def rows_of_connections(data):
    """A row for each request of a table of connections, under the connection's title."""
    while data:
        heading = CONNECTION.match(data)
        length = int(heading[3])
        title = f"{heading[4].decode()} ({heading[1].decode()}, {heading[2].decode()})"
        sent = data[heading.end() : heading.end() + length].decode(errors="backslashreplace")
        for request in [it for it in REQUEST.split(sent) if it] or [sent]:
            yield f"{title} | {request!r}"
        data = data[heading.end() + length + 1 :]


def rows_of_program(files, crate):
    """The rows of a program that the gate runs."""
    given = files.get(f"crates/{crate}/stdin")
    if given is None:
        return ["the run"]
    if CONNECTION.match(given):
        return list(rows_of_connections(given))
    return list(rows_under(crate, given.decode(errors="backslashreplace")))


# ---- all of them


def promises(files):
    """All lines, by their kind, each as often as it stands there."""
    clauses, edits, tests, cases = [], [], [], []
    for crate in crates_of(files):
        sources, of_tests = sources_of(files, crate)
        for path, source in sources.items():
            tests += [f"{crate} {name}" for name in TEST.findall(source)]
            if path not in of_tests:
                clauses += [f"{crate} {path} {name} {clause}: {text}" for name, clause, text in clauses_of(source)]
        if "main" in sources:
            cases += [f"{crate} {row}" for row in rows_of_program(files, crate)]
        begin = f"crates/{crate}/must-fail/"
        edits += [f"{crate}/{path[len(begin):]}" for path in files if path.startswith(begin) and path.endswith(".edit")]
    kinds = {"clauses": clauses, "edits": edits, "rows: tests": tests, "rows: cases of programs": cases}
    return {kind: Counter(lines) for kind, lines in kinds.items()}


def compare(there, here):
    """Prints what is gone and what has come, kind by kind. Tells whether a clause is gone."""
    for kind in here:
        gone, come = there[kind] - here[kind], here[kind] - there[kind]
        print(f"# {kind}: {sum(gone.values())} gone, {sum(come.values())} come, {sum((here[kind] & there[kind]).values())} stay")
        for line, mark in sorted([(it, "-") for it in gone.elements()] + [(it, "+") for it in come.elements()]):
            print(f"{mark} {line}")
    return bool(there["clauses"] - here["clauses"])


def main():
    words = argparse.ArgumentParser(description=__doc__.partition("\n")[0])
    words.add_argument("--against", metavar="REV", help="print only what differs from this revision")
    given = words.parse_args()
    here = promises(files_here())
    if given.against:
        sys.exit(1 if compare(promises(files_of(given.against)), here) else 0)
    for kind, lines in here.items():
        print(f"# {kind}: {sum(lines.values())}")
        print("\n".join(sorted(lines.elements())))


main()
