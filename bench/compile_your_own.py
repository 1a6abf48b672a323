#!/usr/bin/env python3
"""Does what README.md says under "Compile your own", in a folder of its own: it writes the service in C, runs the commands,
and compares what the last of them prints with what README.md says. Without clang 19 it does nothing and says so.

Status 0: the same, or clang 19 isn't there. Status 1: something else was printed, or a command failed."""
import os
import re
import shutil
import subprocess
import sys
import tempfile

ROOT = os.path.dirname(os.path.dirname(os.path.abspath(__file__)))
CLANG = "clang-19"


def block_after(text, words):
    """The first block of indented lines behind these words, without the indent."""
    behind = text[text.index(words) + len(words):]
    lines = re.search(r"\n\n((?:    .*\n|\n)+)", behind).group(1).rstrip("\n").split("\n")
    return "".join(line[4:] + "\n" for line in lines)


def main():
    if shutil.which(CLANG) is None:
        print("compile_your_own: skipped, since %s isn't on PATH" % CLANG)
        return 0
    with open(os.path.join(ROOT, "README.md"), encoding="utf-8") as file:
        part = file.read().split("\n## Compile your own\n")[1].split("\n## ")[0]
    commands = block_after(part, "Compile it").replace("./polkatool", os.path.join(ROOT, "polkatool"))
    wanted = block_after(part, "The run prints")
    with tempfile.TemporaryDirectory() as folder:
        with open(os.path.join(folder, "service.c"), "w", encoding="utf-8") as file:
            file.write(block_after(part, "`service.c`"))
        run = subprocess.run(["sh", "-e", "-c", commands], cwd=folder, capture_output=True, text=True)
    if run.returncode != 0 or not run.stdout.endswith(wanted):
        sys.stderr.write("compile_your_own: status %d\n%s%swanted at the end:\n%s" % (run.returncode, run.stdout, run.stderr, wanted))
        return 1
    print("compile_your_own: ok")
    return 0


if __name__ == "__main__":
    sys.exit(main())
