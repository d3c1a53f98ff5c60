#!/usr/bin/env python3
"""Brings the names of definitions and lemmas to snake case, and the must-fail edits to the spelling of the files that they edit.

usage: tools/respell.py names          in every .antt file, and in the clauses and ghost items of every .rt file, below crates/
       tools/respell.py edits COMMIT   in every must-fail edit, by what became of the files since COMMIT, at which the edits still applied
       tools/respell.py pages COMMIT   in the code spans of the .md files, the names that COMMIT's files declared

Names are whole words. A name is turned if a file of specs/ or proofs/ declares it and no file brings it in from the kit's library. Types keep
their spelling; so do functions of src/, which may share a name with a definition. CHOSEN has the names that would fall together with another one, and what they are called instead.
"""

import collections
import difflib
import os
import re
import subprocess
import sys

WORD = re.compile(r"""[^\s(){}.;,@"«»\[\]]+""")
ODD = re.compile(r"[a-z][A-Za-z0-9']*(?:-[A-Za-z0-9']+|[A-Z])[A-Za-z0-9'-]*")
DECLARED = re.compile(r"(?:^ *|[({] *|\blet )((?:(?:pub|abbrev|unfoldable|private) )*)((?:[^\s(){}.;,@\"«»\[\]:=]+ )+)(?::|=) ", re.M)
FROM = re.compile(r"^ *(?:pub )?use ([^\s{]+?)\.?(?:\{([^}]*)\})?(?: as \S+)?$", re.M)

CHOSEN = {
    "at-depth": "at_the_depth",
    "both-idle": "both_are_idle",
    "byLoad": "by_load_case",
    "by-output": "by_outputs",
    "bySlot": "by_slot_case",
    "cells-on": "cells_on_next",
    "count-checks": "count_checks_same",
    "favours-first": "favours_in_first",
    "frame-bytes": "frame_bytes_are",
    "group-settled": "group_is_settled",
    "is-flow": "is_flow_of_class",
    "odd-flows": "odd_flows_most",
    "output-number": "output_number_is",
    "ports-line": "ports_line_read",
    "ports-within": "ports_within_each",
    "slots-line": "slots_line_read",
    "two-ports": "two_ports_carried",
    "wrong-count": "wrong_count_found",
    "wrong-entry": "wrong_entry_found",
    "all_settled": "all_are_settled",
    "both_ways": "reaches_both_ways",
    "by_place": "counts_by_place",
    "by_side": "counts_by_side",
    "first-at": "first_slots_at",
    "halfAt": "half_at_depth",
    "in-slot": "in_the_slot",
    "number-at": "number_at_is",
    "oneMore": "one_more_moved",
    "put-at": "put_at_is",
    "share-of": "share_of_is",
}


def snake(name):
    return re.sub(r"(?<=[a-z0-9])([A-Z])", lambda m: "_" + m.group(1).lower(), name.replace("-", "_"))


def below(root, ending):
    for folder, dirs, files in os.walk(os.path.join(root, "crates")):
        dirs[:] = sorted(d for d in dirs if d != "out")
        for f in sorted(files):
            if f.endswith(ending):
                yield os.path.join(folder, f)


def read(path):
    with open(path, encoding="utf-8") as f:
        return f.read()


def write(path, text, was):
    if text != was:
        with open(path, "w", encoding="utf-8") as f:
            f.write(text)


def parts(text, comment):
    """The text as pieces of code and, marked True, comments and strings."""
    at = 0
    for m in re.finditer(rf'(?m)(?:^|(?<=\s)){comment}(?= |$)[^\n]*|"(?:[^"\\\n]|\\.)*"', text):
        yield text[at : m.start()], False
        yield m.group(0), True
        at = m.end()
    yield text[at:], False


def names(root):
    crates = set(os.listdir(os.path.join(root, "crates")))
    declared, brought, used, functions = set(), set(), set(), set()
    for path in below(root, ".rt"):
        functions.update(re.findall(r"\bfn (\w+)", read(path)))
    for path in below(root, ".antt"):
        code = "".join(t for t, quiet in parts(read(path), "--") if not quiet)
        for m in FROM.finditer(code):
            own = m.group(1).split(".")[0] == "Rattle" and m.group(1).split(".")[1] in crates
            if m.group(2) and not own:
                brought.update(x.split(" as ")[0].strip() for x in m.group(2).split(","))
        for m in DECLARED.finditer(code):
            declared.update(m.group(2).split())
        used.update(WORD.findall(code))
    turn = {n: CHOSEN.get(n, snake(n)) for n in declared if ODD.fullmatch(n) and n not in brought}
    turn.update((n, to) for n, to in CHOSEN.items() if n in declared)
    new = collections.Counter(turn.values())
    for n, to in sorted(turn.items()):
        if new[to] > 1 or (to in used - functions and to not in turn) or to in brought:
            print(f"respell: {n} would fall together with another {to}")
    return turn


def turned(text, turn, comment):
    def code(t):
        return WORD.sub(lambda m: turn.get(m.group(0), m.group(0)), t)

    def quoted(t):
        return re.sub(r"`[^`\n]*`", lambda m: code(m.group(0).replace("`", " ")[1:-1]).join("``"), t)

    return "".join(quoted(t) if quiet else code(t) for t, quiet in parts(text, comment))


def turn_names(root):
    turn = names(root)
    ghost = {n: to for n, to in turn.items() if ODD.fullmatch(n)}
    for path in below(root, ".antt"):
        was = read(path)
        write(path, turned(was, turn, "--"), was)
    for path in below(root, ".rt"):
        was = read(path)
        write(path, turned(was, ghost, "//"), was)
    print(f"respell: {len(turn)} names")


def pieces(text):
    return re.findall(r"\s+|[^\s(){}.;,@\"«»\[\]]+|.", text)


def spans(old, new):
    """What became of each run of pieces of old that was replaced: its place among old's pieces, and the new text."""
    a, b = pieces(old), pieces(new)
    return a, [(i, j, "".join(b[k:l])) for tag, i, j, k, l in difflib.SequenceMatcher(None, a, b, False).get_opcodes() if tag != "equal"]


def words_between(old, new):
    """How single words were respelled between two texts: the commonest counterpart of each."""
    seen = collections.defaultdict(collections.Counter)
    a, b = pieces(old), pieces(new)
    for tag, i, j, k, l in difflib.SequenceMatcher(None, a, b, False).get_opcodes():
        if tag == "equal":
            for x in a[i:j]:
                seen[x][x] += 1
        elif tag == "replace" and j - i == l - k:
            for x, y in zip(a[i:j], b[k:l]):
                seen[x][y] += 1
    return {x: c.most_common(1)[0][0] for x, c in seen.items() if WORD.fullmatch(x)}


def clause(text):
    """A clause's words as they read today."""
    text = re.sub(r"λ [a-z_]+\. ⌜ ", "", text)
    text = text.replace("⌜ ", "").replace(" ⌝", "")
    text = re.sub(r"\(now \((\w+) \.entry\)\)", r"\1.now", text)
    text = re.sub(r"\(now \((\w+) \.exit\)\)", r"\1.new", text)
    return re.sub(r"\(now (\w+)\)", r"\1.now", text)


def tight(text):
    """Projections as they read today."""
    text = re.sub(r"\((\w+(?: \.\w+)+)\)", lambda m: m.group(1).replace(" ", ""), text)
    return re.sub(r"(?<=\w) (?=\.\w)", "", text)


def turn_edits(root, commit):
    def at_commit(path):
        return subprocess.run(["git", "show", f"{commit}:{os.path.relpath(path, root)}"], cwd=root, capture_output=True, text=True, check=True).stdout

    total = {}
    texts = {}
    listed = subprocess.run(["git", "ls-tree", "-r", "--name-only", commit, "crates"], cwd=root, capture_output=True, text=True, check=True).stdout.split()
    for ending in (".antt", ".rt"):
        for path in below(root, ending):
            if os.path.relpath(path, root) in listed:
                texts[path] = (at_commit(path), read(path))
    everywhere = collections.defaultdict(collections.Counter)
    for old, new in texts.values():
        for x, y in words_between(old, new).items():
            everywhere[x][y] += 1
    total = {x: c.most_common(1)[0][0] for x, c in everywhere.items()}
    left = 0
    for path in below(root, ".edit"):
        crate = os.path.dirname(os.path.dirname(path))
        was = at_commit(path) if os.path.relpath(path, root) in listed else read(path)
        file = re.search(r"(?m)^file: (.*)$", was).group(1)
        old, new = texts[os.path.join(crate, file)]
        here = {**total, **words_between(old, new)}

        def turn(text):
            # What code brings in keeps its name.
            if file.endswith(".rt") and text.startswith("use "):
                return text
            return WORD.sub(lambda m: here.get(m.group(0), m.group(0)), clause(text) if file.endswith(".rt") else tight(text))

        out = []
        for line in was.split("\n"):
            m = re.match(r"(old|new): (.*)$", line)
            out.append(f"{m.group(1)}: {turn(m.group(2))}" if m else line)
        write(path, "\n".join(out), read(path))
        now = new
        for o, n in re.findall(r"(?m)^old: (.*)\nnew: (.*)$", "\n".join(out)):
            if now.count(o) != 1:
                print(f"left: {os.path.relpath(path, root)}: stands {now.count(o)} times: {o}")
                left += 1
                break
            now = now.replace(o, n)
    print(f"respell: {left} edits are left")


def turn_pages(root, commit):
    def git(*words):
        return subprocess.run(["git", *words], cwd=root, capture_output=True, text=True, check=True).stdout

    declared = set()
    for path in git("ls-tree", "-r", "--name-only", commit, "crates").split():
        if path.endswith(".antt"):
            for m in DECLARED.finditer("".join(t for t, quiet in parts(git("show", f"{commit}:{path}"), "--") if not quiet)):
                declared.update(m.group(2).split())
    turn = {n: CHOSEN.get(n, snake(n)) for n in declared if ODD.fullmatch(n)}
    for path in git("ls-files", "*.md").split():
        was = read(os.path.join(root, path))
        write(os.path.join(root, path), re.sub(r"`[^`\n]+`", lambda m: WORD.sub(lambda w: turn.get(w.group(0), w.group(0)), m.group(0).replace("`", " ")[1:-1]).join("``"), was), was)


def main(argv):
    root = subprocess.run(["git", "rev-parse", "--show-toplevel"], capture_output=True, text=True, check=True).stdout.strip()
    if argv == ["names"]:
        turn_names(root)
    elif len(argv) == 2 and argv[0] == "edits":
        turn_edits(root, argv[1])
    elif len(argv) == 2 and argv[0] == "pages":
        turn_pages(root, argv[1])
    else:
        print(__doc__)
        return 2
    return 0


if __name__ == "__main__":
    raise SystemExit(main(sys.argv[1:]))
