#!/usr/bin/env python3
"""Makes the manual's page, docs/connector.1, from what a program says as its help.

    scripts/man_page.py PATH/TO/connector > docs/connector.1
"""
import re
import subprocess
import sys


def said(program: str, word: str) -> str:
    """What the program prints for a word."""
    return subprocess.run([program, word], check=True, capture_output=True, text=True).stdout.strip()


def escaped(text: str) -> str:
    """A text as roff takes it, with what stands in backquotes in bold."""
    return re.sub("`([^`]*)`", r"\\fB\1\\fR", text.replace("\\", r"\e").replace("-", r"\-"))


def commands(paragraph: str) -> list[tuple[str, str]]:
    """The commands of the help, and what each does: two columns, of which the second may go on below, or begin there."""
    rows: list[tuple[str, str]] = []
    for line in paragraph.splitlines():
        name, _, does = line.strip().partition("  ")
        if line.startswith(" "):
            before, so_far = rows.pop()
            rows.append((before, f"{so_far} {line.strip()}".lstrip()))
        else:
            rows.append((name, does.strip()))
    return rows


def page(help_text: str, version: str) -> str:
    """The whole page."""
    what, table, words, status = (" ".join(part.split()) if "  " not in part else part
                                  for part in help_text.split("\n\n"))
    lines = [f'.TH CONNECTOR 1 "" "{escaped(version)}" "Interledger"',
             ".SH NAME", r"connector \- a connector of the Interledger Protocol, version 4",
             ".SH DESCRIPTION", escaped(what),
             ".SH COMMANDS"]
    for name, does in commands(table):
        lines += [".TP", f".B {escaped(name)}", escaped(does)]
    lines += [".SH ARGUMENTS", escaped(words), ".SH EXIT STATUS", escaped(status),
              ".SH SEE ALSO", "docs/OPERATING.md has every field, refusal and line on standard error, and what loses money."]
    return "\n".join(lines) + "\n"


def main(arguments: list[str]) -> int:
    if len(arguments) != 1 or arguments[0].startswith("-"):
        print(__doc__.strip(), file=sys.stderr)
        return 2
    version = said(arguments[0], "--version").split(",")[0]
    print(page(said(arguments[0], "help"), version), end="")
    return 0


if __name__ == "__main__":
    sys.exit(main(sys.argv[1:]))
