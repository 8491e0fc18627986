#!/usr/bin/env python3
"""Brings the repository's own names to today's spelling: words in snake case, primes as apostrophes.

usage: python3 tools/port_names.py [FOLDER]      once, after the kit's port.py, at the top of the repository or for FOLDER

A name is renamed where this repository declares it: in specs/ and in the lemmas of proofs/ each name with a dash that is not
imported from the kit, in src/ the names so renamed where a clause cites them. In the proofs of functions (proofs/F/) only those
names are renamed, since their other names with a dash are the checker's. Names of src/, strings and exported names stay.
It says which declared names of one file fall together, and then ends with status 1.
"""

import os
import re
import sys

NAME = re.compile(r"(?<![\w'′◌.-])[^\W\d][\w'′]*(?:-[\w'′ℤℕ]+)*")
DASHED = re.compile(r"(?<![\w'′◌-])(?P<at>[^\W\d][\w'′]*(?:-[\w'′]+)+)(?![\w'′◌-])")
USE = re.compile(r"^(?:pub )?use\s+([^\s{]+?)(?:\.\{([^}]*)\})?(?:\s+as\s+(\S+))?\s*$")
PRIMED = {"minℤ": "min_ℤ", "maxℤ": "max_ℤ", "halfℤ": "half_ℤ", "subℕ": "sub_ℕ"}


def antt(top):
    for folder, dirs, files in os.walk(top):
        dirs[:] = sorted(d for d in dirs if d not in ("out", "target", "must-fail"))
        for f in sorted(files):
            if f.endswith(".antt"):
                yield os.path.join(folder, f)


def snake(name):
    for old, new in PRIMED.items():
        if name == old or name.startswith(old + "-"):
            name = new + name[len(old):]
    return name.replace("-", "_").replace("′", "'")


def kits(text, own):
    """The names that a file imports from the kit, and its short names for modules of the kit."""
    names, modules = set(), set()
    for line in text.splitlines():
        m = USE.match(line.strip())
        if not m:
            continue
        path, listed, alias = m.groups()
        crate = path.split(".")[1] if path.startswith("Rattle.") and "." in path else None
        if crate in own:
            continue
        for item in (listed or "").split(","):
            words = item.split(" as ")
            names.add(words[0].strip())
        if alias:
            modules.add(alias)
    return names, modules


def is_function_proof(path):
    """Whether a file is the proof of a function: in a folder below proofs/."""
    return os.sep + "proofs" + os.sep in path and os.path.basename(os.path.dirname(path)) != "proofs"


def main():
    top = sys.argv[1] if len(sys.argv) > 1 else "."
    crates = os.path.join(top, "crates")
    own = {c for c in os.listdir(crates) if os.path.isdir(os.path.join(crates, c))}
    texts = {p: open(p, encoding="utf-8").read() for p in antt(crates)}
    renamed = set()
    for path, text in texts.items():
        if is_function_proof(path):
            continue
        names, modules = kits(text, own)
        for line in text.splitlines():
            code = line.split("--")[0] if not line.startswith("use") else line
            m = USE.match(line.strip())
            if m:
                path_of = m.group(1)
                crate = path_of.split(".")[1] if path_of.startswith("Rattle.") else None
                if crate not in own:
                    # what a name of the kit is called here is this repository's
                    for item in (m.group(2) or "").split(","):
                        words = item.split(" as ")
                        if len(words) == 2 and "-" in words[1]:
                            renamed.add(words[1].strip())
                    continue
            for it in DASHED.finditer(code):
                word = it.group("at")
                before = code[: it.start()]
                owner = re.search(r"([\w'′-]+)\.$", before)
                if word in names or (owner and owner.group(1) in modules):
                    continue
                renamed.add(word)
    plain = {p for p in PRIMED}
    count = 0
    for path, text in texts.items():
        names, modules = kits(text, own)
        function = is_function_proof(path)

        def turn(m, names=names, modules=modules, text=text):
            word = m.group("at")
            owner = re.search(r"([\w'′-]+)\.$", text[max(0, m.start() - 60): m.start()])
            if word in names or (owner and owner.group(1) in modules | {"tie", "goal"}):
                return word
            if word in renamed:
                return snake(word)
            return word

        new = DASHED.sub(turn, text)
        for old, to in PRIMED.items():
            new = re.sub(rf"(?<![\w'◌-]){old}(?![\w'◌-])", to, new)
        new = new.replace("′", "'")
        if new != text:
            open(path, "w", encoding="utf-8").write(new)
            count += 1
    for folder, dirs, files in os.walk(crates):
        dirs[:] = sorted(d for d in dirs if d not in ("out", "target"))
        for f in sorted(files):
            if not f.endswith(".rt"):
                continue
            path = os.path.join(folder, f)
            text = open(path, encoding="utf-8").read()

            def quoted(m):
                word = m.group(1)
                new = snake(word) if word in renamed else word
                return new if re.fullmatch(r"[^\W\d][\w']*", new) and new not in ("data", "record", "open", "then", "left") else f"«{new}»"

            out = []
            for line in text.split("\n"):
                if not line.strip().startswith("//"):
                    line = re.sub(r"«([^»]*)»", quoted, line)
                    if re.search(r"\b(ghost use|requires|ensures)\b", line) or "{ " in line:
                        line = DASHED.sub(lambda m: snake(m.group("at")) if m.group("at") in renamed else m.group("at"), line) if '"' not in line else line
                    for old, to in PRIMED.items():
                        line = re.sub(rf"(?<![\w'◌-]){old}(?![\w'◌-])", to, line)
                out.append(line)
            new = "\n".join(out)
            if new != text:
                open(path, "w", encoding="utf-8").write(new)
                count += 1
    # names that fall together, in the file that declares them
    fallen = set()
    for path, text in texts.items():
        if is_function_proof(path):
            continue
        declared = {}
        for line in text.splitlines():
            m = re.match(r"^((?:abbrev|unfoldable|pub|record|data)\s+)*([^\s:(){};=,\[\]λ]+)\s.*:", line)
            if m and not line.startswith(("use", "--", " ")):
                declared.setdefault(snake(m.group(2)), set()).add(m.group(2))
        for new, olds in declared.items():
            if len(olds) > 1:
                fallen.add(f"{path}: {sorted(olds)}")
    print(f"port_names: {len(renamed)} names, {count} files")
    for line in sorted(fallen):
        print("port_names: fall together: " + line)
    raise SystemExit(1 if fallen else 0)


main()
