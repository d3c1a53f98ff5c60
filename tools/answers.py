#!/usr/bin/env python3
"""Turns proof files of the older form, Proof.antt over Tie, into Invariants.antt and Answers.antt.

usage: tools/answers.py NAMES CRATE [FUNCTION ..]    NAMES is the folder that 'rt check --generated NAMES --old-names' wrote in the crate's folder

Goals that the check finds by itself are left out. A function that does not fit the forms that are known here keeps its file, and is named.
"""

import json
import os
import re
import sys

PLAIN = {"search rules", "omega arith", "(search rules, search rules)", "(search rules, search rules, search rules)", "(omega arith, search rules)"}


class Unknown(Exception):
    pass


def same(label):
    """A label without what only its spelling has."""
    return re.sub(r"_(lem|law|is)$", "", label.lower().replace("-", "_"))


def arguments(text):
    """The arguments at the top level of an application."""
    out, depth, at, quoted = [], 0, None, False
    for i, ch in enumerate(text):
        if ch in "([{":
            if depth == 0 and at is None:
                at = i
            depth += 1
        elif ch in ")]}":
            depth -= 1
        if depth == 0 and (ch.isspace() or i == len(text) - 1) and at is not None:
            out.append(text[at : i + 1].strip())
            at = None
        elif at is None and not ch.isspace():
            at = i
    return out


def items(text):
    """The declarations of a file: its use lines, and the blocks at the left margin."""
    uses, blocks = [], []
    for line in text.split("\n"):
        if line.startswith(("use ", "pub use ")):
            uses.append(line)
        elif line and not line[0].isspace():
            blocks.append([line])
        elif blocks:
            blocks[-1].append(line)
    return uses, ["\n".join(b).rstrip() for b in blocks]


class Function:
    def __init__(self, crate, folder, key, data):
        self.crate, self.folder, self.key, self.data = crate, folder, key, data
        self.labels = {}
        for place in data["places"]:
            old, new = place[2]
            if old:
                self.labels.setdefault(same(old), new)
        for pair, _ in data["loops"]:
            self.labels[same(pair[0])] = pair[1]
        self.place_names = {same(p[0]): n for p, n in zip(data["places"], data["places_by_name"])}
        self.goals = {same(o): n for o, n in data["needs"]}

    def body(self, text, name="c"):
        """An answer's text over the context of today."""
        text = re.sub(r"\s*\n\s*", " ", text)
        aliases = [name]
        while True:
            m = re.search(r"\blet (\S+) = (%s)((?:\.before)*) in " % "|".join(re.escape(a) for a in aliases), text)
            if not m:
                break
            text = text[: m.start()] + text[m.end() :]
            text = re.sub(r"(?<![\w.'-])%s(?![\w'-])" % re.escape(m.group(1)), name, text)
        text = re.sub(r"\b%s((?:\.[\w'-]+)+)" % re.escape(name), lambda m: name + self.path(m.group(1)), text)
        if ".before" in text:
            raise Unknown("a context that is passed on: " + text[:120])
        return text

    def path(self, dotted):
        parts = [p for p in dotted.split(".")[1:] if p != "before"]
        if not parts:
            return ""
        head, rest = parts[0], parts[1:]
        if head in ("pre", "requires"):
            head = "requires"
        elif head not in ("args", "ranges", "type_inv", "well_formed", "lifetimes"):
            if same(head) not in self.labels:
                raise Unknown("the label " + head)
            head = self.labels[same(head)]
        rest = ["invariant" if p == "inv" else p for p in rest]
        return "." + ".".join([head] + rest)

    def invariant(self, block):
        m = re.match(r"abbrev (\S+) : tie\.(\S+)\n\1 ([^=]*?) =(.*)", block, re.S)
        if not m:
            raise Unknown("an invariant's form: " + block[:100])
        kind = "decreases" if m.group(2).startswith(("decreases", "measure")) else "invariant"
        which = re.sub(r"^(decreases|invariant|Inv|inv)[_-]", "", m.group(2).replace("-", "_"))
        pair, variables = next((l for l in self.data["loops"] if same(l[0][0]) == same(which)), (None, None))
        if pair is None:
            raise Unknown("the loop " + which)
        changed = self.data["changed"][[l[0] for l in self.data["loops"]].index(pair)]
        names = m.group(3).split()
        turn = {}
        first, later = names[: len(variables)], names[len(variables) :]
        moved = [v for v, c in zip(variables, changed) if c]
        if len(first) != len(variables) or len(later) != len(moved):
            raise Unknown(f"a loop's variables: {names} for {variables} with {moved}")
        for n, v, c in zip(first, variables, changed):
            turn[n] = f"l.initial.{v}" if c else f"l.{v}"
        for n, v in zip(later, moved):
            turn[n] = f"l.{v}"
        turn.pop("_", None)
        text = re.sub(r"(?<![\w.'-])([^\s(){}.;,]+)", lambda w: turn.get(w.group(1), w.group(1)), m.group(4))
        new = f"{kind}-{pair[1]}"
        return new, f"abbrev pub {new} : goal.{new}\n{new} l ={text}"


def turn(crate_dir, key, data):
    crate = os.path.basename(crate_dir)
    stem = key[len(f"Rattle-{crate}-proofs.") : -len(".Lts")]
    folder = os.path.join(crate_dir, "proofs", *stem.split("."))
    path = os.path.join(folder, "Proof.antt")
    if not os.path.exists(path):
        return None
    f = Function(crate, folder, key, data)
    with open(path, encoding="utf-8") as it:
        uses, blocks = items(it.read())
    comments = [b for b in blocks if b.startswith("--")]
    spec = next((b for b in blocks if re.search(r"tie\.close\s*\(tie\.spec", b)), None)
    if spec is None:
        raise Unknown("no tie.spec")
    inside = spec[re.search(r"\(tie\.spec", spec).end() :].rstrip()
    if not inside.endswith(")"):
        raise Unknown("the end of tie.spec")
    args = arguments(inside[:-1])
    where = {}
    others = []
    unfold = "".join(b + "\n" for b in blocks if b.startswith("unfolding "))
    for b in blocks:
        if b.startswith("unfolding "):
            continue
        if b is spec or b.startswith("--") or re.match(r"pub \S+_spec : ", b):
            continue
        name = re.match(r"(?:abbrev |pub )*(\S+)", b).group(1)
        where.setdefault(name, []).append(b)
    invariants = []
    while args and args[0] in where and re.match(r"abbrev \S+ : tie\.(invariant|decreases)", where[args[0]][0]):
        invariants.append(f.invariant("\n".join(where.pop(args[0]))))
        args.pop(0)
    if len(args) != len(data["needs"]):
        raise Unknown(f"{len(args)} answers for {len(data['needs'])} goals: {[n for _, n in data['needs']]}")
    answers = []
    for arg, (_, goal) in zip(args, data["needs"]):
        m = re.fullmatch(r"\(λ (\S+)(?: κs)?\.\s(.*)\)", arg, re.S)
        if m:
            text = f.body(m.group(2).strip(), m.group(1))
            if text in PLAIN and not (unfold and goal.startswith("returns")):
                continue
        elif arg in where and len(where[arg]) <= 2:
            block = "\n".join(where[arg])
            m = re.match(r"%s : tie\.[^\n]*\n%s (\S+)(?: κs)? =(.*)" % ((re.escape(arg),) * 2), block, re.S)
            if not m:
                raise Unknown("the answer " + arg)
            text = f.body(m.group(2).strip(), m.group(1))
            if m.group(1) != "c":
                raise Unknown("the answer's context " + m.group(1))
            others.append(arg)
        else:
            raise Unknown("the answer " + arg[:80])
        answers.append(f"pub {goal} : goal.{goal}\n{unfold}{goal} c = {text}")
    for name in others:
        where.pop(name, None)
    for name, bs in where.items():
        if any("tie." in b for b in bs):
            raise Unknown("the helper " + name)
    helpers = [b for bs in where.values() for b in bs]
    module = f"Rattle.{crate}.proofs.{stem}"
    uses = [u.replace("borrow.Author.Rules.{rules}", "Rattle.std.proofs.Common.{rules}") for u in uses if ".Statement." not in u and not u.endswith("Tie as tie")]

    def write(name, given, parts):
        if not parts:
            return
        text = "\n\n".join(parts)
        mine = []
        for u in uses:
            m = re.match(r"use ([^{]*)\{(.*)\}$", u)
            if m:
                names = [n for n in m.group(2).split(", ") if uses_name(n.split(" as ")[-1], text)]
                if names:
                    mine.append(f"use {m.group(1)}{{{', '.join(names)}}}")
            else:
                mine.append(u)
        with open(os.path.join(folder, name), "w", encoding="utf-8") as it:
            it.write("\n".join(mine + [f"use {module}.{given} as goal"]) + "\n\n" + text + "\n")

    def uses_name(n, text):
        if "◌" in n:
            return all(p in text for p in n.split("◌") if p)
        return re.search(r"(?<![\w'-])%s(?![\w'-])" % re.escape(n), text) is not None

    write("Invariants.antt", "Given", [t for _, t in invariants])
    write("Answers.antt", "Goals", helpers + answers if answers else [])
    os.remove(path)
    return stem


def main(argv):
    names, crate_dir = argv[0], os.path.abspath(argv[1])
    with open(os.path.join(names, "names.json"), encoding="utf-8") as f:
        data = json.load(f)
    crate = os.path.basename(crate_dir)
    for key, value in sorted(data.items()):
        if not key.startswith(f"Rattle-{crate}-proofs.") or not key.endswith(".Lts"):
            continue
        if argv[2:] and not any(key.split(".", 1)[1] in (a + ".Lts", a) for a in argv[2:]):
            continue
        try:
            done = turn(crate_dir, key, value)
            if done:
                print(f"turned: {done}")
        except Unknown as e:
            print(f"left: {key}: {e}")


if __name__ == "__main__":
    main(sys.argv[1:])
