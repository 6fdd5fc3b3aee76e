#!/usr/bin/env python3
# The rules' own choice `if◌then◌else◌` is `when◌then◌else◌` in today's Rattle, which keeps the old name for the library's, a plain function.
#   when_for_if.py [FOLDER]     turns the .antt files, and the clauses and ghost imports of the .rt files, below FOLDER (crates)
import glob
import re
import sys


def turn(line):
    code, mark, comment = line.partition("-- ")
    code = re.sub(r"(?<![\w.'-])if(?=[ ◌])", "when", code)
    return code + mark + comment


for name in glob.glob((sys.argv[1:] or ["crates"])[0] + "/**/*", recursive=True):
    if "/out/" in name or not name.endswith((".antt", ".rt")):
        continue
    lines = open(name).read().split("\n")
    if name.endswith(".antt"):
        new = [turn(line) for line in lines]
    else:
        new = [turn(line) if re.match(r"\s*(ghost use|requires|ensures)\b", line) else line for line in lines]
    if new != lines:
        open(name, "w").write("\n".join(new))
