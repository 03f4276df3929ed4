#!/usr/bin/env python3
"""Respells this repository's own definitions, lemmas, fields and local names in specs/, proofs/ and clauses: words in snake case, types in
camel case. Run once at the top of the repository, after the toolchain's own script. Names that the toolchain makes, names of libraries,
functions of src/, strings and comments keep their spelling."""
import os
import re
import sys

TOKEN = r"[^\s(){}\[\].,;:@\"|?]+"
# goals that answers name; the toolchain made their names
GOAL = re.compile(r"(" + TOKEN + r")\s*:\s*(?:goal|given|need)\.")
PLAIN = re.compile(r"^[A-Za-z_][\w']*(?:[-_][\w']+)+$")
# names of libraries that are brought in under the same name
LIBRARY = {"to_z-of_z", "drop_of_length-le"}
# variables that begin with the name of a fact
VARIABLES = {"Known-as"}
KEYWORDS = {"abbrev", "unfoldable", "pub", "record", "data", "ruleset", "where", "in", "let", "elim", "as", "use", "open", "mod", "module"}


def files(ending):
    for crate in sorted(os.listdir("crates")):
        for part in ("specs", "proofs", "src"):
            for folder, _, names in os.walk(os.path.join("crates", crate, part)):
                for name in sorted(names):
                    if name.endswith(ending):
                        yield os.path.join(folder, name)


def read(path):
    with open(path, encoding="utf-8") as f:
        return f.read()


def uncommented(line):
    """The line before a comment."""
    m = re.search(r"(^|\s)--(\s|$)", line)
    return line[: m.start()] if m else line


def defined(text):
    """The names that an .antt file gives."""
    names = set()
    for line in text.splitlines():
        line = uncommented(line)
        if re.match(r"\s*(pub )?use\b", line):
            names.update(re.findall(r"\bas (" + TOKEN + r")", line))
            continue
        if re.search(r":\s*(goal|given|need)\.", line):
            continue
        m = re.match(r"\s*((?:(?:abbrev|unfoldable|pub|record|data)\s+)*)(" + TOKEN + r")(.*)$", line)
        if m and m.group(2) not in KEYWORDS:
            words, name, rest = m.group(1).split(), m.group(2), m.group(3)
            if "record" in words or "data" in words:
                names.add(name)
            else:
                s = re.match(r"((?:\s+" + TOKEN + r")*)\s*:(?:\s|$)(.*)", rest)
                if s:
                    for n in [name] + s.group(1).split():
                        names.add(n)
                elif re.match(r"[^=]*=(\s|$)", rest):
                    names.add(name)
                    names.update(re.findall(TOKEN, rest.split(" = ")[0]))
        for m in re.finditer(r"[({]\s*((?:" + TOKEN + r"\s+)*" + TOKEN + r")\s+:\s", line):
            names.update(m.group(1).split())
        for m in re.finditer(r"\blet\s+(" + TOKEN + r")(?:\s+" + TOKEN + r")*\s*[:=]", line):
            names.add(m.group(1))
        for m in re.finditer(r"λ\s+((?:" + TOKEN + r"\s+)*" + TOKEN + r")\.", line):
            names.update(m.group(1).split())
    return names


def camel(name):
    return "".join(p[:1].upper() + p[1:] for p in re.split(r"[-_]", name))


def main():
    names, used, goals = set(), set(), set()
    for path in files(".antt"):
        text = read(path)
        names |= defined(text)
        used |= set(re.findall(TOKEN, text))
        goals |= set(GOAL.findall(text))
    names -= goals
    rust = set()
    for path in files(".rt"):
        text = read(path)
        used |= set(re.findall(TOKEN, text))
        rust |= set(re.findall(r"\bfn (\w+)", text))
    mapping = {}
    for n in sorted(names):
        if not PLAIN.match(n) or n in LIBRARY:
            continue
        if n[0].isupper():
            mapping[n] = n[0].lower() + n[1:].replace("-", "_") if n in VARIABLES else camel(n)
        elif "-" in n:
            mapping[n] = n.replace("-", "_")
    if "--list" in sys.argv:
        for a, b in mapping.items():
            print(a, b, "RUST" if b in rust else "", "USED" if b in used else "")
        return
    parts = re.compile(TOKEN)

    def swap(m):
        w = m.group(0)
        return mapping.get(w, w)

    changed = 0
    for path in list(files(".antt")) + list(files(".rt")):
        text = read(path)
        out = []
        for line in text.split("\n"):
            if path.endswith(".rt"):
                m = re.search(r"(^|\s)//(\s|$)", line)
                code, tail = (line[: m.start()], line[m.start() :]) if m else (line, "")
                bits = re.split(r'("(?:[^"\\]|\\.)*")', code)
                code = "".join(b if i % 2 else parts.sub(swap, b) for i, b in enumerate(bits))
            else:
                code = uncommented(line)
                tail = line[len(code):]
                if not re.search(r":\s*(goal|given)\.", code):
                    code = parts.sub(swap, code)
            tail = re.sub(r"`([^`\s]+)`", lambda m: "`" + mapping.get(m.group(1), m.group(1)) + "`", tail)
            out.append(code + tail)
        new = "\n".join(out)
        if new != text:
            changed += 1
            with open(path, "w", encoding="utf-8") as f:
                f.write(new)
    print(len(mapping), "names in", changed, "files")


main()
