#!/usr/bin/env python3
"""Runs the examples of these pages, and of README.md, as they stand there, and compares what the program says.

    docs/run_examples.py [PAGE ..]

An example is a block whose first line begins with `$ `: commands, each with what it prints behind it; behind `$ cat > FILE` stands what
the file is to hold. The blocks of a page share one folder, which is made for it and taken away. A release is compared as far as it is
the present second, as a number or as a date with its time: it is another one each time. The first example of README.md has to be the
session that `newsdesk --try` does, too. What the pages say of the sources is looked at first, by check_pages.py.

A line of an example that begins with `newsdesk: `, or with a moment before that, or with `usage: newsdesk ` is one of standard error, wherever
it stands among those of standard output; behind a command that has `2>` in it all lines are of standard output. An example that shows such a
line shows all that its commands say there. Where it shows none, a command that ends with the line of a status has to have said something there
all the same. Whatever else stands on standard error, as what a shell says of a command that it has not found, is wrong anywhere.
"""
import os
import re
import subprocess
import sys
import tempfile

sys.dont_write_bytecode = True
import check_pages  # noqa: E402

TOP = os.path.dirname(os.path.dirname(os.path.abspath(__file__)))
PAGES = ("README.md", "docs/DESK.md", "docs/OPERATING.md", "docs/SERVING.md", "docs/SUBSCRIBERS.md", "docs/WIRES.md")
SESSION = "examples/first_story.session"
PRESENT = re.compile(r"\b1[7-9]\d{8}\b|\b20[2-9]\d-\d\d-\d\dT\d\d:\d\d:\d\dZ")
SAID = re.compile(r"(?:\d{4}-\d\d-\d\dT\d\d:\d\d:\d\dZ )?newsdesk: |usage: newsdesk ")
STATUS = re.compile(r'\{.*"status":\d+\}')


def blocks(text):
    """The examples of a page: lists of commands, each with the lines behind it."""
    for block in re.findall(r"^```\n(.*?)^```$", text, re.M | re.S):
        lines = block.splitlines()
        if not lines or not lines[0].startswith("$ "):
            continue
        commands = []
        for line in lines:
            if line.startswith("$ "):
                commands.append((line[2:], []))
            else:
                commands[-1][1].append(line)
        yield commands


def session_lines(commands):
    """An example as the lines of a session: each command's words, and behind them what it is given."""
    files, lines = {}, []
    for command, behind in commands:
        if command.startswith("cat > "):
            files[command[len("cat > "):]] = behind
        else:
            words, _, file = command[len("./newsdesk "):].partition(" < ")
            lines += [f"$ {words}", *files.get(file, [])]
    return lines


def is_the_session(text):
    """Whether the first example of a page is the session, but for the moments that its clock shows."""
    with open(os.path.join(TOP, SESSION), encoding="utf-8") as file:
        session = [line for line in file.read().splitlines() if not line.startswith("@ ")]
    return session_lines(next(blocks(text))) == session


def plain(lines):
    return PRESENT.sub("NOW", "".join(line + "\n" for line in lines))


def is_file(command):
    """Whether what stands behind a command is what it is given, and not what it prints."""
    return command.startswith("cat > ")


def shown(command, behind):
    """What a page shows of a command: the lines of standard output, and those of standard error."""
    if is_file(command):
        return [], []
    if "2>" in command:
        return behind, []
    return [line for line in behind if not SAID.match(line)], [line for line in behind if SAID.match(line)]


def lines_of(text):
    """The lines of what a command wrote; the last one tells where it has no end."""
    *lines, rest = text.split("\n")
    return [*lines, f"{rest} (no line end)"] if rest else lines


def written(command, given, folder, logs, count):
    """What a command writes to standard output and to standard error, each as lines. What it leaves running may go on writing to the same files."""
    paths = [os.path.join(logs, f"{count}.{name}") for name in ("output", "said")]
    with open(paths[0], "wb") as output, open(paths[1], "wb") as said:
        subprocess.run(["bash", "-c", command], cwd=folder, input=given.encode(), stdout=output, stderr=said, check=False)
    lines = []
    for path in paths:
        with open(path, encoding="utf-8", errors="backslashreplace") as file:
            lines.append(lines_of(file.read()))
    return lines


def differences(command, behind, output, said, shows):
    """What is other than the page says: for each such thing a title, what is expected, and what was written."""
    wanted, wanted_said = shown(command, behind)
    if plain(output) != plain(wanted):
        yield "standard output", plain(wanted), plain(output)
    strange = [line for line in said if not SAID.match(line)]
    if strange:
        yield "standard error, of another program", "", plain(strange)
    elif shows and plain(said) != plain(wanted_said):
        yield "standard error", plain(wanted_said), plain(said)
    elif "2>" not in command and output and STATUS.fullmatch(output[-1]) and not said:
        yield "standard error", "a line that says why\n", ""


def write_program(path):
    """The program under the name by which the pages call it."""
    with open(path, "w", encoding="utf-8") as file:
        file.write(f'#!/usr/bin/env bash\nexec "{TOP}/newsdesk" "$@"\n')
    os.chmod(path, 0o755)


def run(page):
    """How many commands a page has, and how many of them wrote something else."""
    with open(os.path.join(TOP, page), encoding="utf-8") as file:
        text = file.read()
    count = wrong = 0
    if page == "README.md" and not is_the_session(text):
        wrong = 1
        print(f"{page}: its first example is not {SESSION}")
    with tempfile.TemporaryDirectory() as folder, tempfile.TemporaryDirectory() as logs:
        write_program(os.path.join(folder, "newsdesk"))
        os.symlink(os.path.join(TOP, "examples"), os.path.join(folder, "examples"))
        for commands in blocks(text):
            shows = any(shown(*command)[1] for command in commands)
            for command, behind in commands:
                given = "".join(line + "\n" for line in behind) if is_file(command) else ""
                output, said = written(command, given, folder, logs, count)
                count += 1
                found = list(differences(command, behind, output, said, shows))
                wrong += bool(found)
                for title, expected, told in found:
                    print(f"{page}: $ {command}\n{title}, expected:\n{expected}written:\n{told}")
    return count, wrong


def main():
    failed = check_pages.main([])
    # the program is built before the first example, so that nothing is said of that behind one
    if subprocess.run([os.path.join(TOP, "newsdesk"), "--version"], stdout=subprocess.DEVNULL, check=False).returncode:
        sys.exit("there is no program to run the examples with")
    for page in sys.argv[1:] or PAGES:
        count, wrong = run(page)
        print(f"{page}: {count} commands, {wrong} of them otherwise than the page says")
        failed += wrong
    sys.exit(1 if failed else 0)


if __name__ == "__main__":
    main()
