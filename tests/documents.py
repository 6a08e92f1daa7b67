#!/usr/bin/env python3
"""Runs the commands that the documents show, and compares what they print.

usage: documents.py PROGRAM

In a block of a document a line `$ COMMAND` is run at the top of the repository, and the lines behind it are what it prints; a line
`..` stands for any lines. In docs/FAULTS.md each row of a table has a text and the line that is printed for it; where a row tells the
text in words, so does the table of this file. The last line counts the cases."""

import re
import subprocess
import sys
import tempfile
from pathlib import Path

TOP = Path(__file__).resolve().parent.parent
DOCUMENTS = ["README.md", *(f"docs/{path.name}" for path in sorted((TOP / "docs").glob("*.md")))]

# how long a command may take, in seconds
LONGEST = 60

# the texts that the table of faults tells in words
IN_WORDS = {
    "1,048,577 blanks": " " * 1048577,
    "`MODULE main VAR q : boolean; INIT` and 1,001 times `!` before `q`": "MODULE main VAR q : boolean; INIT " + "!" * 1001 + "q",
    "`MODULE main VAR` and 4,097 variables": "MODULE main VAR " + " ".join(f"v{i} : boolean;" for i in range(4097)),
}


def examples(text):
    """The commands of a document, each with the lines that it prints."""
    for block in re.findall(r"^```\n(.*?)^```$", text, re.M | re.S):
        parts = re.split(r"^\$ (.*)\n", block, flags=re.M)
        yield from zip(parts[1::2], parts[2::2])


def fits(wanted, found):
    """Whether the lines are those that are wanted, where `..` stands for any lines."""
    pattern = "".join("(?:.*\n)*" if line == ".." else re.escape(line) + "\n" for line in wanted.splitlines())
    return re.fullmatch(pattern, found) is not None


def printed(command, program):
    """What a command prints on both streams."""
    words = command.split("#")[0].replace("./covsmv", program)
    ran = subprocess.run(words, shell=True, cwd=TOP, timeout=LONGEST, stdout=subprocess.PIPE, stderr=subprocess.STDOUT, text=True)
    return ran.stdout


def fault_rows(text):
    """The rows of the tables of faults: the text of a model and the line that is printed."""
    for row in re.findall(r"^\| [A-Z]\w+ \| (.*?) \| `(model: .*?)` \|", text, re.M):
        yield row


def told(text, program):
    with tempfile.NamedTemporaryFile("w") as file:
        file.write(text)
        file.flush()
        ran = subprocess.run([program, "check", file.name], timeout=LONGEST, stdout=subprocess.PIPE, stderr=subprocess.STDOUT, text=True)
        return ran.stdout


def cases(program):
    """The name of each case, what is wanted and what is found."""
    for name in DOCUMENTS:
        text = (TOP / name).read_text(encoding="utf-8")
        for command, wanted in examples(text):
            if command.startswith(("./covsmv ", "cat examples/")):
                yield f"{name}: {command}", wanted, printed(command, program)
        for cell, line in fault_rows(text) if name == "docs/FAULTS.md" else []:
            yield f"{name}: {cell}", line + "\n", told(IN_WORDS.get(cell) or cell.strip("`"), program)


def main():
    program = str(Path(sys.argv[1]).resolve())
    passed, failed = 0, 0
    for name, wanted, found in cases(program):
        if fits(wanted, found):
            passed += 1
        else:
            failed += 1
            print(f"{name}\nwanted:\n{wanted}found:\n{found}")
    print(f"{passed} passed, {failed} failed")
    return 0 if passed and not failed else 1


if __name__ == "__main__":
    sys.exit(main())
