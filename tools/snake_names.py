#!/usr/bin/env python3
"""Spells this repository's own definitions and lemmas as today's Rattle spells names: snake case, a dash only between two names.

usage: snake_names.py [ROOT]

Run once, right after port.py. It turns .antt and .rt files, must-fail edits, README.md and docs/. Names of src/, of exports, of generated goals, strings, inputs
and outputs stay. The folders specs/model become specs/Model. Lines 'meet:' name files in which two names would fall together: there must be none.
"""

import os
import re
import subprocess
import sys

ROOT = os.path.abspath(sys.argv[1] if len(sys.argv) > 1 else ".")
NAME = re.compile(r'[^\s(){}.;,@"«»`]+')
WORD = re.compile(r"[^\W\d][\w']*(?:-[\w']+)+")
HEAD = re.compile(r"^\s*(?:(?:pub|abbrev|unfoldable|data|record|let|where)\s+)*((?:[^\s(){}.;,@\"«»:=|λ]+\s+)+?):\s")
LET = re.compile(r"\blet\s+([^\s(){}.;,:=]+)\s*[:=]")
USE = re.compile(r"(?m)^\s*(?:ghost )?use ([^\s;{]+?)(?:\.\{([^}]*)\})?(?: as (\S+?))?;?$")
OURS = re.compile(r"Rattle\.(\w+)\.")
# Facts that proofs name, in a file each.
FACTS = {"command/proofs/Grammar.antt": {"named": "Named", "named-ask": "NamedAsk"}, "exports/proofs/Replayed.antt": {"keeps": "Keeps"}, "session/proofs/Replayed.antt": {"keeps": "Keeps"}}
TIED = re.compile(r": (?:tie\.|\{M : Type 1\} → statement M)")


def files(*ends):
    for folder, dirs, names in os.walk(os.path.join(ROOT, "crates")):
        dirs[:] = sorted(d for d in dirs if d != "out")
        for n in sorted(names):
            if n.endswith(ends):
                yield os.path.join(folder, n)


def read(path):
    with open(path, encoding="utf-8") as f:
        return f.read()


def write(path, text):
    with open(path, "w", encoding="utf-8") as f:
        f.write(text)


def uncommented(text, mark):
    return re.sub(re.escape(mark) + r"[^\n]*", "", text)


def declared(text):
    found = set()
    for line in uncommented(text, "--").split("\n"):
        if TIED.search(line):
            continue
        m = HEAD.match(line)
        if m:
            found |= set(m[1].split())
        found |= set(LET.findall(line))
    return {n for n in found if WORD.fullmatch(n)} | {n for n in found if "-" not in n and "_" not in n and re.fullmatch(r"[^\W\d]\w*", n)}


def imported(text, crates):
    """The names that a file takes from the kit, and those that it takes from this repository."""
    kit, own = set(), set()
    for path, names, alias in USE.findall(text):
        m = OURS.match(path + ".")
        into = own if m and m[1] in crates else kit
        for n in (names or "").split(","):
            into.add(n.split(" as ")[-1].strip())
    return kit, own


def joined(name, known):
    """The name's new spelling: a dash where it joins names that are known, else underscores."""
    parts = name.split("-")
    best = {0: []}
    for end in range(1, len(parts) + 1):
        for start in range(end):
            piece = "_".join(parts[start:end])
            if start in best and piece in known and (end not in best or len(best[start]) + 1 < len(best[end])):
                best[end] = best[start] + [piece]
    cut = best.get(len(parts))
    return "-".join(cut) if cut and len(cut) > 1 else "_".join(parts)


def table(crates):
    specs, lemmas, own = set(), set(), set()
    kit = set()
    for path in files(".antt"):
        text = read(path)
        names = declared(text)
        own |= names
        kit |= imported(text, crates)[0]
        if "/specs/" in path:
            specs |= names
        elif os.path.basename(path) not in ("Proof.antt", "Answers.antt", "Invariants.antt"):
            lemmas |= names
    known = {n.replace("-", "_") for n in specs} | {n for n in kit if re.fullmatch(r"[^\W\d]\w*", n)}
    turned = {}
    for n in own:
        if WORD.fullmatch(n):
            turned[n] = joined(n, known) if n in lemmas and n not in specs else n.replace("-", "_")
    return {n: t for n, t in turned.items() if n != t}


def turn_code(text, names, mark):
    out = []
    for line in text.split("\n"):
        if mark == "\0" and not line.startswith(("old: ", "new: ")):
            out.append(line)
            continue
        at = line.find(mark)
        code, rest = (line, "") if at < 0 else (line[:at], line[at:])
        code = NAME.sub(lambda m: names.get(m[0], m[0]), code) if mark == "--" else WORD.sub(lambda m: names.get(m[0], m[0]), code)
        out.append(code + turn_ticks(rest, names))
    return "\n".join(out)


def turn_ticks(text, names):
    """In prose a name stands between backticks."""
    return re.sub(r"`[^`\n]*`", lambda t: WORD.sub(lambda m: names.get(m[0], m[0]), t[0]), text)


def models(text):
    return re.sub(r"\bspecs([./])model\b", r"specs\1Model", text)


def meets(path, before, names):
    """Two names of one file that would be spelled alike."""
    words = {m[0] for m in NAME.finditer(uncommented(before, "--" if path.endswith(".antt") else "//"))}
    for old, new in sorted(names.items()):
        if old in words and new in words:
            yield f"meet: {os.path.relpath(path, ROOT)}: {old} and {new}"


def main():
    crates = set(os.listdir(os.path.join(ROOT, "crates")))
    names = table(crates)
    seen = {}
    for old, new in sorted(names.items()):
        if new in seen:
            print(f"meet: {seen[new]} and {old} are both {new}")
        seen[new] = old
    for path in files(".antt", ".rt", ".edit"):
        text = read(path)
        kit = set() if path.endswith(".edit") else imported(text, crates)[0]
        here = {o: n for o, n in names.items() if o not in kit} | FACTS.get(os.path.relpath(path, os.path.join(ROOT, "crates")), {})
        for line in meets(path, text, here):
            print(line)
        mark = "//" if path.endswith(".rt") else "--" if path.endswith(".antt") else "\0"
        new = models(turn_code(text, here, mark))
        if path.endswith("specs/Lib.antt"):
            new = re.sub(r"(?m)^pub mod model$", "pub mod Model", new)
        if new != text:
            write(path, new)
    pages = [os.path.join(ROOT, "README.md")]
    for folder, _, found in os.walk(os.path.join(ROOT, "docs")):
        pages += [os.path.join(folder, n) for n in found if n.endswith(".md")]
    for path in pages:
        text = read(path)
        new = models(turn_ticks(text, names))
        if new != text:
            write(path, new)
    for c in sorted(crates):
        for end in ("", ".antt"):
            at = os.path.join(ROOT, "crates", c, "specs", "model" + end)
            if os.path.exists(at):
                subprocess.run(["git", "mv", at, at[: -len("model" + end)] + "Model" + end], check=True, cwd=ROOT)
    print(f"{len(names)} names")


main()
