#!/usr/bin/env python3
"""Respells the repository's own definitions and lemmas in snake case, and puts #![tactic(auto)] into each root file.

usage: python3 tools/port_names.py          at the top, once, right after the kit's port.py: rewrites crates/ by tools/port_names.tsv
       python3 tools/port_names.py table    writes tools/port_names.tsv from the files as they stand, and lists names that fall together

Functions, parameters and variables of src/, strings, and what a library declares keep their names.
"""

import os
import re
import sys

TABLE = "tools/port_names.tsv"
NAME = re.compile(r"[^\s(){}\[\],;.@\"«»λ]+")
DECLARED = re.compile(r"^\s*(?:pub |abbrev |unfoldable |opaque )*([a-z][^\s(){}\[\],;.@\"]*)\s*:\s(.*)$")
LET = re.compile(r"\blet ([a-z][A-Za-z0-9_'-]*)(?= [:=])")
USE = re.compile(r"^\s*(?:pub )?(?:ghost )?use ([^\s{;]+?)(?:\.\{([^{}]*)\})?(?: as (\S+?))?;?\s*$")
# Lemmas that would fall together with the definition that they speak of.
LEMMAS = set(
    "all-zero area-run area-size area-step broken-keys child-all child-image child-key child-pairs child-table children-of day-within each-byte first-kept folded-columns"
    " folds-of found-by fresh-code has-key in-range in-transaction kept-in-range key-values left-first many-rows match-full null-in old-keys one-run paper-cases parent-all"
    " parent-pairs placed-part put-row refused-by row-at row-bound row-in row-start row-statement rows-found run-all run-from same-value stranded-rows unique-columns uses-rise"
    " whole-at window-at zero-at".split()
)
# The same, of lemmas that port.py brought to snake case; only where they stand alone, since functions of src/ have these names too.
BARE = set("in_window left_end live_state no_key same_key same_word serves_by work_in".split())


def snake(name):
    out = re.sub(r"(?<=[a-z0-9_])([A-Z])", r"_\1", name)
    out = re.sub(r"(?<=[A-Z])([A-Z])(?=[a-z])", r"_\1", out)
    out = re.sub(r"(?<=[A-Za-z0-9'])-(?=[A-Za-z0-9])", "_", out).lower()
    return out + "_lem" if name in LEMMAS or name in BARE else out


def crates():
    with open("crates.txt", encoding="utf-8") as f:
        lines = [it.split("#")[0].split(":")[0].split() for it in f]
    return [it[0] for it in lines if it]


def files(ends):
    for folder, dirs, names in os.walk("crates"):
        dirs[:] = sorted(it for it in dirs if it != "out")
        for it in sorted(names):
            if it.endswith(ends):
                yield os.path.join(folder, it)


def read(path):
    with open(path, encoding="utf-8") as f:
        return f.read()


def write(path, text):
    with open(path, "w", encoding="utf-8") as f:
        f.write(text)


def is_proof(path):
    """Whether the file answers goals that the kit names."""
    return os.path.basename(path) in ("Proof.antt", "Answers.antt", "Invariants.antt")


def foreign(text, own):
    """The names that the file takes from a library."""
    found = set()
    for line in text.split("\n"):
        it = USE.match(line)
        if it and it[2] and not (it[1].startswith("Rattle.") and it[1].split(".")[1] in own):
            found |= {x.strip() for x in it[2].split(",")}
    return found


def aliases(text):
    """Names of modules in lower case, but those that the kit makes."""
    found = set()
    for line in text.split("\n"):
        it = USE.match(line)
        if it and it[3] and it[3] not in ("tie", "reads", "lts", "goal", "code"):
            found.add(it[3])
    return found


def wants(name):
    return snake(name) != name and re.fullmatch(r"[a-z][A-Za-z0-9_'-]*", name)


def declared():
    """The repository's own names that change, and those of them that are fields."""
    own, names, fields = crates(), set(), set()
    for path in files(".antt"):
        text = read(path)
        inside, kept = None, foreign(text, own)
        for line in text.split("\n"):
            depth = len(line) - len(line.lstrip())
            head = re.match(r"\s*(?:pub )*(record|data) ", line)
            if head:
                inside = depth
            elif line.strip() and inside is not None and depth <= inside:
                inside = None
            it = DECLARED.match(line)
            if it and wants(it[1]) and it[1] not in kept and not line.lstrip().startswith("--"):
                if is_proof(path) and re.match(r"(tie|goal)\.|\{M : Type 1\} → statement|statement ", it[2]):
                    continue
                names.add(it[1])
                if inside is not None:
                    fields.add(it[1])
            names |= {x for x in LET.findall(line) if wants(x) and x not in kept}
    return names | BARE, fields


def turned(text, path, table, fields, own):
    """The text with the names of the table."""
    kept, known, out = foreign(text, own), aliases(text), []
    proof, rt = is_proof(path), path.endswith(".rt")
    for line in text.split("\n"):
        comment = re.search(r"(?:^|\s)(--|//)(?=\s|$)", line)
        end = comment.start() if comment else len(line)
        ghost = rt and line.lstrip().startswith("ghost use")

        def new(it):
            word, at = it[0], it.start()
            if word not in table or word in kept:
                return word
            if word in BARE and (rt or line[:at].endswith(".") or line[it.end() :].startswith(".")):
                return word
            dashed = "-" in word
            if at >= end:
                return word if dashed else table[word]
            if rt and dashed and not ghost:
                return word
            if proof and dashed and line[:at].endswith("."):
                before = re.search(r"([^\s(){}\[\],;.@\"]+)\.$", line[:at])
                left = before[1] if before else ""
                if not (left[:1].isupper() or left in known or word in fields):
                    return word
            return table[word]

        out.append(NAME.sub(new, line))
    return "\n".join(out)


def clashes(table, fields):
    own = crates()
    for path in files((".antt", ".rt")):
        text = read(path)
        there = set(NAME.findall(text))
        kept = foreign(text, own)
        seen = {}
        for x in there:
            y = table.get(x, x) if x not in kept and x not in BARE else x
            seen.setdefault(y, set()).add(x)
        for y, xs in sorted(seen.items()):
            if len(xs) > 1:
                yield path, y, sorted(xs)


def with_tactic(text):
    if "#![tactic(auto)]" in text:
        return text
    lines = text.split("\n")
    at = next(i for i, it in enumerate(lines) if not it.startswith("//"))
    lines[at:at] = ["", "#![tactic(auto)]"] if at and not lines[at].strip() else ["", "#![tactic(auto)]", ""]
    return "\n".join(lines)


def main(argv):
    if argv == ["table"]:
        names, fields = declared()
        table = {it: snake(it) for it in names}
        write(TABLE, "".join(f"{x}\t{table[x]}\t{'field' if x in fields else ''}".rstrip() + "\n" for x in sorted(table)))
        print(f"{len(table)} names")
        for path, y, xs in clashes(table, fields):
            print(f"{path}: {y}: {', '.join(xs)}")
        return 0
    rows = [it.split("\t") for it in read(TABLE).splitlines()]
    table, fields = {it[0]: it[1] for it in rows}, {it[0] for it in rows if it[2:] == ["field"]}
    own = crates()
    for path in files((".antt", ".rt")):
        before = read(path)
        after = turned(before, path, table, fields, own)
        if path.endswith(("src/lib.rt", "src/main.rt")):
            after = with_tactic(after)
        if after != before:
            write(path, after)
    return 0


if __name__ == "__main__":
    raise SystemExit(main(sys.argv[1:]))
