#!/usr/bin/env python3
"""Checks that statuses, their lines and the commands that may end with them are told alike wherever they are told.

The one place is crates/pipe_cli: the lines in src/status.rt, and the list `statuses` in the contract of each command
(specs/Commands/*.antt and what these are made by). Compared with it are the tables of README.md and docs/FORMATS.md and
the text of `--help` (src/commands/help.rt). It prints what differs, and ends with 1 where something does.

usage: tools/check_statuses.py
"""
import pathlib
import re
import sys

ROOT = pathlib.Path(__file__).resolve().parent.parent
CLI = ROOT / "crates" / "pipe_cli"


def read(path):
    return path.read_text(encoding="utf-8")


def lines_of_refusals():
    """The fixed line of each status that has one."""
    text = read(CLI / "src" / "status.rt")
    found = re.findall(r'"error (\d+): ([^"]*)\\n"', text)
    return {int(status): line for status, line in found}


def lists_in(text):
    """The lists of statuses in a file of specs."""
    return [[int(n) for n in re.findall(r"\d+", row)] for row in re.findall(r"statuses = ([0-9 ∷]*)∷ \[\]", text)]


def statuses_of_commands():
    """The statuses of each command, by the name of its contract."""
    specs = CLI / "specs"
    made = {}
    for maker, path in (("looks_at", specs / "Jobs.antt"), ("writes", specs / "NoInputs.antt")):
        (made[maker],) = lists_in(read(path))
    commands = {}
    for path in sorted((specs / "Commands").glob("*Command.antt")):
        text = read(path)
        own = lists_in(text)
        if own:
            (statuses,) = own
        else:
            (maker,) = set(re.findall(r"^\w+(?: \w+)* = (looks_at|writes)(?:_those)?\b", text, re.M))
            statuses = made[maker]
        commands[path.stem.removesuffix("Command").lower()] = statuses
    return commands


def rows_under(text, header):
    """The rows of the table below a header line."""
    lines = text.split("\n")
    at = next(i for i, line in enumerate(lines) if line.startswith(header))
    rows = []
    for line in lines[at + 2:]:
        if not line.startswith("|"):
            break
        rows.append([cell.strip() for cell in line.strip("|").split("|")])
    return rows


def differences():
    refusals = lines_of_refusals()
    commands = statuses_of_commands()
    numbers = sorted(set(refusals) | {6, 7})
    readme = rows_under(read(ROOT / "README.md"), "| status | line |")
    formats = read(ROOT / "docs" / "FORMATS.md")
    for name, rows in (("README.md", readme), ("docs/FORMATS.md", rows_under(formats, "| status | line |"))):
        told = sorted({int(row[0]) for row in rows})
        if told != numbers:
            yield f"{name}: statuses {told}, not {numbers}"
        for row in rows:
            line = refusals.get(int(row[0]))
            if line is not None and not row[1].startswith(f"`error {row[0]}: {line}`"):
                yield f"{name}: status {row[0]} isn't told by its line: {row[1]}"
    table = {}
    for words, _, statuses in rows_under(formats, "| words | reads |"):
        command = words.strip("`").split(" ")[0].replace("-", "") if words.startswith("`") else "other"
        table.setdefault(command, []).append([int(n) for n in statuses.split()])
    if table.pop("other", None) != [[1]]:
        yield "docs/FORMATS.md: other words don't end with 1"
    for command, statuses in commands.items():
        for told in table.pop(command, [None]):
            if told != statuses:
                yield f"docs/FORMATS.md: {command} ends with {told}, not {statuses}"
    for command in table:
        yield f"docs/FORMATS.md: there is no command {command}"
    help_text = re.search(r'"(liskevar: .*)"', read(CLI / "src" / "commands" / "help.rt")).group(1)
    shown = help_text.replace("\\n", "\n").split("\n")
    told = [int(row.split()[0]) for row in shown if re.match(r" ?\d+  ", row)]
    if told != [0] + numbers:
        yield f"--help: statuses {told}, not {[0] + numbers}"
    named = {row.split()[1].replace("-", "") for row in shown if row.startswith("liskevar ")}
    if named != set(commands):
        yield f"--help: commands {sorted(named)}, not {sorted(commands)}"


def main():
    found = list(differences())
    for difference in found:
        print(difference)
    if not found:
        print("statuses: README, docs/FORMATS.md and --help tell what the contracts do")
    return 1 if found else 0


if __name__ == "__main__":
    sys.exit(main())
