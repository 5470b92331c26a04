#!/usr/bin/env python3
"""Turns each proofs/F/Proof.antt of a crate that answers by a Tie into Invariants.antt and Answers.antt.

usage: answers.py CRATE_FOLDER NAMES_JSON

NAMES_JSON is what `rt check --generated DIR --old-names` leaves in DIR. Lines 'left:' name what is for the hand; such a Proof.antt's text stays in the answers as a comment.
"""

import json
import os
import re
import sys

CRATE = os.path.abspath(sys.argv[1])
NAME = os.path.basename(CRATE)
with open(sys.argv[2], encoding="utf-8") as f:
    NAMES = json.load(f)
TOKEN = r"[^\s(){}.;,@\"«»]+"


def canon(name):
    return name.replace("-", "_")


def chunks(text):
    """The top-level pieces of a file: its use lines, and each declaration with the comments above it."""
    uses, pieces, cur = [], [], []
    title = re.match(r"(?:--[^\n]*\n)*", text)[0]
    for line in text[len(title):].split("\n"):
        if line.startswith("use "):
            uses.append(line)
            continue
        if line and not line[0].isspace() and cur and not (all(l.startswith("--") for l in cur if l)):
            head = re.match(r"(?:pub |abbrev |unfoldable )*(" + TOKEN + r")", line)
            own = next((re.match(r"(?:pub |abbrev |unfoldable )*(" + TOKEN + r")", l)[1] for l in cur if l and not l.startswith(("--", " ", "unfolding"))), None)
            if line.startswith("unfolding") or line.startswith(")") or (head and head[1] == own and " : " not in line.split("=")[0]):
                cur.append(line)
                continue
            pieces.append(cur)
            cur = []
        cur.append(line)
    if cur:
        pieces.append(cur)
    return title.strip("\n").split("\n"), uses, ["\n".join(p).strip("\n") for p in pieces if any(p)]


def shown(names, text):
    """The use lines of which text has a name, each with the names that it has."""
    words = set(re.findall(TOKEN, re.sub(r"--[^\n]*", "", text)))
    dotted = set(re.findall(r"(?<![\w.])(" + TOKEN + r")\.", text))
    out = []
    for line in names:
        m = re.match(r"use ([^{]+)\.\{(.*)\}$", line)
        if not m:
            alias = line.split(" as ")[-1].split(".")[-1]
            if alias in words or alias in dotted:
                out.append(line)
            continue
        keep = []
        for n in [x.strip() for x in m[2].split(",")]:
            short = n.split(" as ")[-1]
            parts = [p for p in short.split("◌") if p]
            if short in words or (("◌" in short) and all(p in words for p in parts)):
                keep.append(n)
        if keep:
            out.append(f"use {m[1]}.{{{', '.join(keep)}}}")
    return out


def kept(function):
    """The parameters of a function of this repository that are no plain numbers, in order."""
    crate, name = function.split("::")[0], function.split("::")[-1]
    folder = os.path.join(os.path.dirname(CRATE), crate, "src")
    for at, _, found in os.walk(folder):
        for f in sorted(found):
            with open(os.path.join(at, f), encoding="utf-8") as it:
                m = re.search(r"\bfn " + re.escape(name) + r"(?:<[^>]*>)?\(([^)]*)\)", it.read())
            if m and (len(function.split("::")) < 3 or function.split("::")[-2] in (f[:-3], "State", "Session") or f in ("lib.rt", "main.rt")):
                params = [p.strip().split(":", 1) for p in m[1].split(",") if ":" in p]
                return [n.replace("mut ", "").strip() for n, t in params if not re.fullmatch(r"\s*([ui]\d+|usize|bool)\s*", t)]
    return []


def chain(info, place):
    """The indexes of a place and of those before it, or of all where the place is not known."""
    names = [p[0] for p in info["places"]]
    if place not in names:
        return list(range(len(names)))
    out = []
    while place in names:
        out.append(names.index(place))
        place = info["places"][out[-1]][1]
    return out


def named(segs, fields):
    """The clause that projections of a tuple nested to the right come to."""
    k = 0
    while k + 1 < len(fields) and segs[k : k + 1] == ["1"]:
        k += 1
    if len(fields) < 2 or segs[k : k + 1] == ["1"] or (k + 1 < len(fields) and segs[k : k + 1] != ["0"]):
        return segs
    return [fields[k]] + segs[k + (k + 1 < len(fields)) :]


class Steps:
    """What stands for a path at a goal: the steps on the way to it, the arms of its matches, and the clauses of its calls."""

    def __init__(self, info, place):
        self.steps, self.arms, self.clauses, self.fields, self.news = {}, [], {}, {}, {}
        depth = {}
        for i in chain(info, place):
            old, new = info["places"][i][2]
            if old:
                self.steps.setdefault(canon(old), new)
            arm = info["arms"][i]
            if arm and depth.get(arm[0], 0) < arm[1]:
                depth[arm[0]] = arm[1]
                self.arms += [(canon(o), path, arm[0], field) for field, o, path in arm[2]]
            self.fields.setdefault(new, dict(info["places"][i][4]))
            if info["places"][i][3]:
                self.news.setdefault(new, kept(info["places"][i][3]))
            clauses = info["clauses"][i]
            if clauses:
                self.clauses[new] = clauses["fields"]
        self.arms.sort(key=lambda a: -len(a[1]))
        self.args = {canon(o.split(" .")[1]): n.split(" .")[1] for o, n in info["args"] if o.startswith(".args ")}
        self.pre = (info["pre"] or {}).get("fields", [])

    def arm(self, segs):
        for old, path, arm, field in self.arms:
            if segs and canon(segs[0]) == old and segs[1 : 1 + len(path)] == path:
                return [arm, field] + segs[1 + len(path) :]
        return None

    def turn(self, segs):
        segs = [s for s in segs if s != "before"]
        if not segs:
            return segs
        found = self.arm(segs)
        if found:
            return found
        first = canon(segs[0])
        if first not in self.steps and first.endswith("_lem"):
            first = first[:-4]
        if first in ("well_formed", "args", "requires", "ranges", "lifetimes", "type_inv"):
            segs[0] = first
        elif first in self.steps:
            segs[0] = self.steps[first]
        if segs[0] == "args" and len(segs) > 1:
            segs[1] = self.args.get(canon(segs[1]), segs[1])
        if segs[0] == "requires":
            segs = segs[:1] + named(segs[1:], self.pre)
        if len(segs) > 1 and segs[1] in self.fields.get(segs[0], {}):
            segs[1] = self.fields[segs[0]][segs[1]]
        if len(segs) > 2 and segs[1] in ("new", "auto"):
            n = 0
            while len(segs) > 2 + n and segs[2 + n] == "1":
                n += 1
            names = self.news.get(segs[0], [])
            if len(segs) > 2 + n and segs[2 + n] == "0" and n < len(names):
                segs[2 : 3 + n] = [names[n]]
        fields = self.clauses.get(segs[0])
        if fields and len(segs) > 2 and segs[1] == "ensures":
            segs = segs[:2] + named(segs[2:], fields)
        return segs


def path(text, turned, helper=False):
    """c.before.if1.true as c.if-x-lt3.true, also from a name that is let be c or a step before it."""
    text = re.sub(r"\.«([^»]*)»", r".\1", text)
    roots, args, calls = {"c"}, set(), {}
    kinds = {}

    def one(m):
        segs = m[0].split(".")
        if segs[0] in args and len(segs) > 1:
            return ".".join([segs[0], turned.args.get(canon(segs[1]), segs[1])] + segs[2:])
        if segs[0] in calls and len(segs) > 1:
            return ".".join([segs[0]] + turned.turn([calls[segs[0]]] + segs[1:])[1:])
        if segs[0] not in roots or (helper and "before" not in segs):
            return m[0]
        return ".".join([segs[0]] + turned.turn(segs[1:]))

    out = []
    for line in text.split("\n"):
        for m in re.finditer(r"let (\S+) = ([^\s(){}]+) in", line):
            segs = m[2].split(".")
            if segs[0] in roots and all(s == "before" for s in segs[1:]):
                roots.add(m[1])
            elif segs[0] in roots and canon(segs[-1]) in turned.steps and all(s == "before" for s in segs[1:-1]):
                calls[m[1]] = segs[-1]
            elif segs[0] in roots and segs[-1] == "args" and all(s == "before" for s in segs[1:-1]):
                args.add(m[1])
        out.append(re.sub(r"(?<![\w.'-])[^\W\d][\w'₀-₉-]*(?:\.[^\s(){}.;,@\"«»]+)+", one, line))
    return "\n".join(out)


def split(text):
    """The parts of a tuple, without its parentheses."""
    parts, depth, cur = [], 0, ""
    for ch in text:
        depth += (ch in "([{") - (ch in ")]}")
        if ch == "," and not depth:
            parts.append(cur)
            cur = ""
        else:
            cur += ch
    if cur.strip():
        parts.append(cur)
    return parts


def as_record(text, fields):
    """A tuple at the end of an answer as the record of the clauses."""
    s = text.rstrip()
    last = max(s.rfind(" in\n"), s.rfind(" in "), s.rfind(" =\n"), s.rfind(" = ") if " in" not in s else -1)
    said = re.sub(r"^ (in|=)\s+", "", s[last:]) if last >= 0 else ""
    if re.match(r"[^\W\d][\w'-]* ", said) and not re.match(r"(rw|simp|search|grind|omega|record|absurd|let|elim|unfold|cc)\b", said):
        head = s[: len(s) - len(said)]
        return head + "let all = " + said + " in\n    record { " + "; ".join(f"{f} = all.{k}" for k, f in enumerate(fields)) + " }"
    if not s.endswith(")"):
        return text
    depth, i = 0, len(s)
    while i:
        i -= 1
        depth += (s[i] in ")]}") - (s[i] in "([{")
        if not depth:
            break
    parts = split(s[i + 1 : -1])
    while len(parts) < len(fields) and parts and parts[-1].strip().startswith("(") and parts[-1].strip().endswith(")"):
        parts = parts[:-1] + split(parts[-1].strip()[1:-1])
    if len(parts) == 1 and re.search(r"\brw (\S+|\([^()]*\)) $", s[:i]) and re.match(r"[^\W\d][\w'-]* ", parts[0]) and not re.match(r"(rw|simp|search|grind|omega|record|absurd|let|elim|unfold|cc|λ)\b", parts[0]):
        return s[:i] + "(let all = " + parts[0] + " in record { " + "; ".join(f"{f} = all.{k}" for k, f in enumerate(fields)) + " })"
    if len(parts) != len(fields) or not re.search(r"(=|\bin|\n|\))\s*$|(rw|simp) \S+ $", s[:i]):
        return text
    return s[:i] + "(record { " + "; ".join(f"{f} = {' '.join(p.split())}" for f, p in zip(fields, parts)) + " })"


def comments(piece):
    return [l for l in piece.split("\n") if l.startswith("--")]


def code(piece):
    return "\n".join(l for l in piece.split("\n") if not l.startswith("--"))


def over(body, params, loop_vars, changed):
    """An invariant's body over the record l."""
    now = [v for v, c in zip(loop_vars, changed) if c]
    if len(params) != len(loop_vars) + len(now):
        return None
    into, l = {}, record_name(body)
    for p, v, c in zip(params, loop_vars, changed):
        into[p] = f"{l}.initial.{v}" if c else f"{l}.{v}"
    for p, v in zip(params[len(loop_vars):], now):
        into[p] = f"{l}.{v}"
    return re.sub(r"(?<![\w.'-])[^\W\d][\w'₀-₉-]*", lambda m: into.get(m[0], m[0]), body)


def record_name(body):
    return "now" if re.search(r"(?<![\w.'-])l(?![\w'.-])", body) else "l"


def convert(file):
    rel = os.path.relpath(os.path.dirname(file), os.path.join(CRATE, "proofs"))
    module = rel.replace(os.sep, ".")
    key = f"Rattle-{NAME}-proofs.{module}.Lts"
    with open(file, encoding="utf-8") as f:
        text = f.read()
    if ".Tie as tie" not in text:
        print(f"left: {rel}: no Tie")
        return
    if key not in NAMES:
        print(f"left: {rel}: not in the names")
        return
    info = NAMES[key]
    title, uses, pieces = chunks(text)
    uses = [u for u in uses if ".Statement." not in u and ".Tie as tie" not in u]
    everywhere = Steps(info, None)
    at = {n[1]: a[0] for n, a in zip(info["needs"], info["asked_at"])}
    asked = {n: info["asked"][o] for o, n in info["needs"] if o in info["asked"]}
    called, shared = {}, []
    stated = "\n".join(p for p in pieces if " : tie.invariant-" in p or " : tie.decreases-" in p)
    old_needs = {canon(o): n for o, n in reversed(info["needs"])}
    new_needs = {canon(n): n for o, n in info["needs"]}
    invariants, answers = [], []
    loops = {canon(l[0][0]): (l[0][1], l[1], ch) for l, ch in zip(info["loops"], info["changed"])}
    for piece in pieces:
        if not piece.strip():
            continue
        body = code(piece).strip("\n")
        lines = body.split("\n")
        m = re.match(r"(?:pub |abbrev )*(" + TOKEN + r") : tie\.(invariant|decreases)-(" + TOKEN + r")$", lines[0])
        if m:
            loop = loops.get(canon(m[3]))
            d = re.match(re.escape(m[1]) + r"((?: " + TOKEN + r")*) =\s*(.*)$", "\n".join(l for l in lines[1:] if not l.startswith("unfolding")), re.S)
            if not loop or not d:
                print(f"left: {rel}: {m[1]}")
                invariants.append("-- TODO " + body.replace("\n", "\n-- "))
                continue
            b = over(d[2], d[1].split(), loop[1], loop[2])
            if b is None:
                print(f"left: {rel}: {m[1]}: parameters {d[1].split()} of {loop[1]} {loop[2]}")
                b = d[2]
            n = f"{m[2]}-{loop[0]}"
            l = record_name(d[2])
            invariants.append("\n".join(comments(piece) + [f"abbrev pub {n} : goal.{n}"] + [l for l in lines[1:] if l.startswith("unfolding")] + [f"{n} {l} = {b}" if "\n" not in d[0].split("=", 1)[1][:2] else f"{n} {l} =\n    {b}"]))
            continue
        m = re.match(r"(?:pub |abbrev )*(" + TOKEN + r") : tie\.Need-(\S+)(.*)$", lines[0])
        if m:
            want = canon(m[2])
            new = old_needs.get(want) or old_needs.get(want.removeprefix("overflow_")) or new_needs.get(want)
            if not new:
                near = [n for o, n in info["needs"] if canon(o).endswith(want) or want.endswith(canon(o))]
                new = near[0] if len(near) == 1 else None
            if not new:
                print(f"left: {rel}: goal {m[2]} of {[o for o, n in info['needs']]}")
                answers.append("-- TODO " + body.replace("\n", "\n-- "))
                continue
            rest = []
            for l in lines[1:]:
                l = re.sub(r"^" + re.escape(m[1]) + r" (\S+)(?: κs)?((?: \S+)*) =", lambda k: f"{new} {k[1]}{k[2]} =", l)
                rest.append(l)
            called[m[1]] = new
            said = path("\n".join(rest), Steps(info, at[new]))
            if new in asked:
                said = as_record(said, asked[new])
            answers.append("\n".join(comments(piece) + [f"pub {new} : goal.{new}", said]))
            continue
        if re.match(r"(?:pub )?\S+[-_]spec : \{M : Type 1\} → statement M", lines[0]):
            continue
        said = "\n".join(comments(piece) + [path(body, everywhere, True)])
        if lines[0].startswith("abbrev") and re.search(r"(?<![\w.'-])" + re.escape(lines[0].split()[1]) + r"(?![\w'-])", stated):
            name = lines[0].split()[1]
            invariants.insert(sum(p.startswith("abbrev pub") and " : goal." not in p for p in invariants), said.replace("abbrev " + name, "abbrev pub " + name, 1))
            shared.append(name)
            continue
        answers.append(said)
    answers = [re.sub(r"(?<=stage )[^\s()]+", lambda k: called.get(k[0], k[0]), a) for a in answers]
    folder = os.path.dirname(file)

    def write(kind, goals, parts):
        text = "\n\n".join(parts)
        own = [u for u in shown(uses, text)]
        if shared and kind == "Answers.antt":
            own += shown([f"use Rattle.{NAME}.proofs.{module}.Invariants.{{{', '.join(shared)}}}"], text)
        own.append(f"use Rattle.{NAME}.proofs.{module}.{goals} as goal")
        with open(os.path.join(folder, kind), "w", encoding="utf-8") as f:
            f.write("\n".join(title + own) + "\n\n" + text + "\n")

    if invariants:
        write("Invariants.antt", "Given", invariants)
    if answers:
        write("Answers.antt", "Goals", answers)
    os.remove(file)


for folder, dirs, found in os.walk(os.path.join(CRATE, "proofs")):
    dirs.sort()
    if "Proof.antt" in found:
        convert(os.path.join(folder, "Proof.antt"))
