#!/usr/bin/env python3
# Brings the definitions, fields, constructors, lemmas and their variables to snake case: pushAll and push-all become push_all.
# Run once, at the top, right after port.py. Names of the library, of generated goals and of Rust source are left alone.
import collections
import glob
import os
import re
import sys

TOKEN = re.compile(r"[A-Za-z_][A-Za-z0-9_'₀-₉-]*")
CRATES = sorted(line.split(":")[0] for line in open("crates.txt") if ":" in line)

# Names of this repository that the library spells alike, and that port.py left.
SHARED = """accept-is b-is best-is cell-is change-is count-is dA dB eB each-one else-first entries-more first-is first-none first-same
from-x i-is last-is least-is length-places made-is n-is nA nB nearest-same next-is not-below place-2 prev-first q-is r-is rest-is row-at
scan-stop state-is step-none take-shown third-is total-add total-one total-zero units-is""".split()


def bare(text):
    return "\n".join(re.sub(r"(^|\s)--\s.*$", "", line) for line in text.split("\n"))


def snake(name):
    name = name.replace("-", "_")
    name = re.sub(r"(?<=[a-z0-9'])([A-Z]+)", lambda m: "_" + m[1].lower(), name)
    return name


def odd(name):
    return name[0].islower() and ("-" in name or re.search("[A-Z]", name)) and not name.endswith("-")


def library_names():
    names = set()
    for folder, _, files in os.walk("/opt/rattle/rattle"):
        if "/examples" in folder or "/tests" in folder:
            continue
        for name in files:
            if name.endswith(".antt"):
                names |= set(TOKEN.findall(open(os.path.join(folder, name)).read()))
    return names


def own_names():
    files = glob.glob("crates/*/specs/*.antt") + glob.glob("crates/*/proofs/*.antt")
    found = set()
    for name in files:
        found |= {t for t in TOKEN.findall(bare(open(name).read())) if odd(t)}
    library = library_names()
    return {t for t in found if t not in library or t in SHARED}


# Two names that would fall together: the lemma gets `_lem`.
LEMMAS = {
    "laws": {"value-from": "value_from_lem", "start-round": "start_round_lem", "words_left": "words_left_lem", "bit-of": "bit_of_lem"},
    "sheets": {"end-at": "end_at_lem"},
    "start": {"row-at": "row_at_lem"},
    "lk_scans": {"cont-is": "cont_is_lem"},
}
# A file whose name Rattle also makes, in lower case.
PAGES = ["README.md", "host/README.md", "crates/replay/README.md"] + sorted(glob.glob("docs/*.md"))
FILES = {"crates/rules/specs/Contracts.antt": "crates/rules/specs/SharedWords.antt"}


# Definitions that a source file cites beside a function of the same name: there they are said to be `NAME_of`.
def beside_functions(text, turn):
    code = set(TOKEN.findall(re.sub(r"^ghost use .*$", "", text, flags=re.M)))
    for old in sorted(code & turn.keys()):
        if turn[old] in code | {m for m in re.findall(r"fn (\w+)", text)}:
            yield old


# In the pages: a name in backticks that no file has, and whose snake case one has.
def turn_pages(files):
    names = set()
    for name in files:
        if os.path.exists(name):
            names |= set(TOKEN.findall(open(name).read()))
    names |= set(TOKEN.findall(open(list(FILES.values())[0]).read()))

    def turned(m):
        return m[0] if m[0] in names or not odd(m[0]) or snake(m[0]) not in names else snake(m[0])

    for name in PAGES:
        text = open(name).read()
        new = re.sub(r"`[^`\n]+`", lambda m: TOKEN.sub(turned, m[0]), text)
        if new != text:
            open(name, "w").write(new)


def main():
    turn = {name: snake(name) for name in own_names()}
    files = [f for f in glob.glob("crates/**/*", recursive=True) if re.search(r"\.(antt|rt)$", f) and "/out/" not in f]
    if sys.argv[1:] == ["--pages"]:
        return turn_pages(files)
    if sys.argv[1:] == ["--clashes"]:
        for name in sorted(files):
            here = set(TOKEN.findall(bare(open(name).read())))
            for old in sorted(here & turn.keys()):
                if turn[old] in here:
                    print(name, old, turn[old])
        back = collections.defaultdict(set)
        for old, new in turn.items():
            back[new].add(old)
        for new, olds in sorted(back.items()):
            if len(olds) > 1:
                print("two:", sorted(olds), new)
        return
    for name in sorted(files):
        text = turned = open(name).read()
        here = dict(turn, **LEMMAS.get(name.split("/")[1], {}))
        if name.endswith(".rt"):
            here.update({alias: snake(alias) for alias in re.findall(r" as ([a-z]\w*[A-Z]\w*)", text)})
            for old in beside_functions(text, here):
                new = here[old]
                turned = re.sub(r"(?m)^(ghost use .*)\b%s\b(?! as)" % old, r"\1%s as %s_of" % (new, new), turned)
                turned = re.sub(r"\b%s\b" % old, new + "_of", turned)
        turned = TOKEN.sub(lambda m: here.get(m[0], m[0]), turned).replace("specs.Contracts.", "specs.SharedWords.")
        if name.endswith("specs/Lib.antt"):
            turned = turned.replace("pub mod Contracts\n", "pub mod SharedWords\n")
        if turned != text:
            open(name, "w").write(turned)
    for old, new in FILES.items():
        os.rename(old, new)
    turn_pages(files)
    print(len(turn), "names")


main()
