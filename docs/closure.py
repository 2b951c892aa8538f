#!/usr/bin/env python3
"""What somebody has to open who wants to know what a contract says: the files of specs/ that it names, and those that these name in turn,
with their lines; and how many arguments the definitions at the top take.

    docs/closure.py [TARGET ..] [--repo FOLDER]
    docs/closure.py --most 6 --most-files 80 --most-lines 4000      fails where a target, or a definition at the top, is past one of these

A TARGET is a file of specs/ as program_run/specs/Does.antt, its module as Rattle.program_run.specs.Does, or a function as program_run::run or
newsdesk_server::serve::run_serve: then those modules count whose names stand in the clauses of its contract. With none, the targets are the
program's call, without and with its formats, and the server's two.

Lines are those that are neither blank nor a comment. A type that a contract names is counted by its name: its declaration stands in src/.
What the kit has (std, serde_json ..) is not counted.
"""
import argparse
import os
import re
import sys

TOP = os.path.dirname(os.path.dirname(os.path.abspath(__file__)))
TARGETS = ("program_run/specs/Does.antt", "program_run::run", "newsdesk_server::opening::open_store", "newsdesk_server::serve::run_serve")
# those whose arguments are counted, and of which the aims speak
DEFINITIONS = (("program_run/specs/Does.antt", "Does"), ("program_run/specs/Does.antt", "Serves"), ("program_run/specs/Does.antt", "ReceiverServes"))
AIMED = ("program_run/specs/Does.antt",)
USE = re.compile(r"^\s*(?:pub )?(?:ghost )?use (Rattle\.[^\s{;]+?)(?:\.\{([^}]*)\})?(?: as (\S+?))?;?\s*$")
OPENING, CLOSING = "([{", ")]}"


class Repository:
    def __init__(self, folder):
        self.folder = folder
        self.uses_of = {}
        with open(os.path.join(folder, "crates.txt"), encoding="utf-8") as lines:
            heads = (line.split("#")[0].partition(":")[0].split() for line in lines)
            self.crates = {head[0] for head in heads if head}

    def text(self, path):
        with open(os.path.join(self.folder, path), encoding="utf-8") as file:
            return file.read()

    def is_file(self, path):
        return os.path.isfile(os.path.join(self.folder, path))

    def module(self, name):
        """The file of a module, or of the one that an item stands in; a type of src/ by its name; None where it is the kit's."""
        parts = name.split(".")
        if len(parts) < 4 or parts[1] not in self.crates or parts[2] not in ("specs", "proofs"):
            return None
        if parts[3] == "declared":
            return ".".join(parts[1:2] + parts[4:6])
        for end in range(len(parts), 3, -1):
            path = os.path.join("crates", parts[1], parts[2], *parts[3:end]) + ".antt"
            if self.is_file(path):
                return path
        return None

    def uses(self, path):
        """The files and types that a file names, with the names that it takes of each."""
        if path not in self.uses_of:
            found = (USE.match(line) for line in self.text(path).splitlines())
            named = ((self.module(use.group(1)), use) for use in found if use)
            self.uses_of[path] = [(where, use) for where, use in named if where]
        return self.uses_of[path]

    def lines(self, path):
        rows = (line.strip() for line in self.text(path).splitlines())
        return sum(1 for row in rows if row and not row.startswith("--"))


def is_type(where):
    return not where.endswith(".antt")


def closure(repository, starts):
    """Each file and type that is reached, with the file that first led to it."""
    reached = {start: None for start in starts}
    waiting = [start for start in reached if not is_type(start)]
    while waiting:
        at = waiting.pop(0)
        for where, _ in repository.uses(at):
            if where not in reached:
                reached[where] = at
                if not is_type(where):
                    waiting.append(where)
    return reached


def sources(repository, crate):
    for folder, _, names in os.walk(os.path.join(repository.folder, "crates", crate, "src")):
        yield from (os.path.relpath(os.path.join(folder, name), repository.folder) for name in sorted(names) if name.endswith(".rt"))


def clauses(text, function):
    """The clauses of a function's contract, or None where the text does not have it."""
    head = re.search(r"^[ \t]*(?:pub(?:\([a-z]+\))? )?fn " + re.escape(function) + r"\b", text, re.M)
    if not head:
        return None
    said = []
    for line in text[head.end():].splitlines()[1:]:
        row = line.strip()
        if row in ("{", "{}") or row.startswith(("fn ", "pub fn ")):
            break
        if row.startswith(("requires", "ensures")) or (said and not row.startswith("//")):
            said.append(row)
    return "\n".join(said)


def names_in(use):
    whole = use.group(2) or use.group(3) or use.group(1).rpartition(".")[2]
    return [name.strip().rpartition(" as ")[2] for name in whole.split(",")]


def starts_of(repository, target):
    """The files that a target names first."""
    if "::" in target:
        crate, *modules, function = target.split("::")
        for path in sources(repository, crate):
            if modules and not path.endswith("/".join(modules) + ".rt"):
                continue
            said = clauses(repository.text(path), function)
            if said is not None:
                words = set(re.findall(r"[A-Za-z_]\w*", said))
                return [where for where, use in repository.uses(path) if words.intersection(names_in(use))]
        return []
    where = repository.module(target) if target.startswith("Rattle.") else target if target.startswith("crates/") else "crates/" + target
    return [where] if where and (is_type(where) or repository.is_file(where)) else []


def binders(text):
    """How many values the round binders `(a b : T)` of a head bind: those in braces are found by the check."""
    count, depth, begun = 0, 0, 0
    for place, sign in enumerate(text):
        if sign in OPENING:
            begun = place if depth == 0 else begun
            depth += 1
        elif sign in CLOSING:
            depth -= 1
            inside = text[begun + 1:place]
            if depth == 0 and sign == ")" and " : " in inside:
                count += len(inside.split(" : ")[0].split())
    return count


def premises(text):
    """How many values a type takes before its result."""
    parts, depth = [""], 0
    for sign in text:
        depth += (sign in OPENING) - (sign in CLOSING)
        if sign == "→" and depth == 0:
            parts.append("")
        else:
            parts[-1] += sign
    return sum(max(binders(part), 1) for part in parts[:-1] if not part.strip().startswith("{"))


def arguments(repository, path, name):
    """How many values a definition takes, with those of the modules around it; None where the file does not have it."""
    around, heading = [], False
    for line in repository.text("crates/" + path).splitlines():
        row, indent = line.strip(), len(line) - len(line.lstrip())
        if not row or row.startswith("--"):
            continue
        if heading:
            around[-1][1] += binders(row)
            heading = not row.endswith("where")
            continue
        around = [module for module in around if module[0] < indent]
        outside = sum(count for _, count in around)
        if row.startswith("module _"):
            around.append([indent, binders(row)])
            heading = not row.endswith("where")
        elif re.match(r"(?:abbrev |unfoldable )?pub (?:record |data )?" + name + r"\b", row):
            head = row.split(name, 1)[1]
            if "record" in row.split(name)[0] or "data" in row.split(name)[0]:
                return outside + binders(head)
            return outside + premises(head.split(":", 1)[1])
    return None


def way(reached, where):
    path = [where]
    while reached[path[-1]] is not None:
        path.append(reached[path[-1]])
    return " <- ".join(step.removeprefix("crates/").replace("/specs/", ":").removesuffix(".antt") for step in path)


def main():
    parser = argparse.ArgumentParser(description=__doc__, formatter_class=argparse.RawDescriptionHelpFormatter)
    parser.add_argument("targets", nargs="*", metavar="TARGET")
    parser.add_argument("--repo", default=TOP, metavar="FOLDER", help="another checkout than the one that this file stands in")
    parser.add_argument("--list", action="store_true", help="print each file with its lines, and the file that first led to it")
    parser.add_argument("--crates", action="store_true", help="print the files and lines of each crate")
    parser.add_argument("--why", metavar="PLACE", help="print by which files a crate, or a file as newsroom/specs/Stands.antt, is reached")
    parser.add_argument("--without", action="append", default=[], metavar="CRATE", help="leave a crate out of the count")
    parser.add_argument("--most", type=int, metavar="N", help="fail where a definition at the top takes more arguments")
    parser.add_argument("--most-files", type=int, metavar="N", help="fail where a target has more files; of the program's call, its definitions without the formats")
    parser.add_argument("--most-lines", type=int, metavar="N", help="fail where it has more lines")
    asked = parser.parse_args()
    repository = Repository(asked.repo)
    wrong = []
    for target in asked.targets or TARGETS:
        starts = starts_of(repository, target)
        if not starts:
            wrong.append(f"{target} is not here")
            continue
        reached = closure(repository, starts)
        files = sorted(where for where in reached if not is_type(where) and where.split("/")[1] not in asked.without)
        lines = {path: repository.lines(path) for path in files}
        crates = sorted({path.split("/")[1] for path in files})
        print(f"{target}: {len(files)} files, {sum(lines.values())} lines, of {len(crates)} crates, and {len(reached) - sum(1 for w in reached if not is_type(w))} types")
        for crate in crates if asked.crates else ():
            own = [path for path in files if path.split("/")[1] == crate]
            print(f"    {crate:22} {len(own):3} files {sum(lines[path] for path in own):5} lines")
        for path in files if asked.list else ():
            print(f"    {lines[path]:4} {path.removeprefix('crates/')}   <- {(reached[path] or 'the target').removeprefix('crates/')}")
        if asked.why:
            place = "crates/" + asked.why.removeprefix("crates/")
            for path in files:
                if path == place or path.startswith(place + "/"):
                    print("    " + way(reached, path))
        if asked.targets or target in AIMED:
            if asked.most_files is not None and len(files) > asked.most_files:
                wrong.append(f"{target} has {len(files)} files: more than {asked.most_files}")
            if asked.most_lines is not None and sum(lines.values()) > asked.most_lines:
                wrong.append(f"{target} has {sum(lines.values())} lines: more than {asked.most_lines}")
    for path, name in DEFINITIONS:
        count = arguments(repository, path, name) if repository.is_file("crates/" + path) else None
        if count is not None and (not asked.targets or path in asked.targets):
            print(f"{name} takes {count} arguments")
            if asked.most is not None and count > asked.most:
                wrong.append(f"{name} takes {count} arguments: more than {asked.most}")
    for fault in wrong:
        print(fault, file=sys.stderr)
    return 1 if wrong else 0


if __name__ == "__main__":
    try:
        sys.exit(main())
    except BrokenPipeError:
        sys.exit(0)
