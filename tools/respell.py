#!/usr/bin/env python3
"""Brings the repository's own names to the spelling of today's Rattle: words in snake case.

usage: python3 tools/respell.py          at the top of the repository, once, after the kit's port.py
       python3 tools/respell.py --list   prints the names that would change, and those that would fall together

What is renamed: definitions, lemmas, fields and constructors that a file of specs/ or proofs/ declares, and every use of them in
specs/, proofs/, clauses, must-fail edits and, between backticks, in pages. Functions of src/, types and modules keep their names.
"""

import collections
import os
import re
import sys

# Names that would fall together with another, or hide one in a file that has both.
OWN = {
    "z-size": "z_sized",
    "p-size": "p_sized",
    "za-size": "za_sized",
    "in-range": "is_in_range",
    "narrowFirst": "sum_narrow_first",
    "wideFirst": "sum_wide_first",
    "or-else": "or_else_assoc",
    "start-byte": "start_byte_lt",
    "clear_at": "clear-at",
    "add_at": "add-at",
    "joined_to": "joined_to_lem",
    "some_below": "some_below_lem",
}
# Variables that lemmas bind.
BOUND = {"firstPair": "first_pair", "secondPair": "second_pair", "zaOn": "za_on"}
OWN |= {n: n.replace("-", "_") + "_lem" for n in (
    "contents-of", "decode-number", "decode-refusal", "end-text", "fixed-bit", "has-text", "in-buffers", "in-turn", "longest-line",
    "number-of", "printed-length", "printed-refusal", "same-name", "same-until", "tile-bits", "tile-decoded", "tile-named", "two-way",
)}

DECLARED = re.compile(r"^(\s*)((?:(?:pub|abbrev|unfoldable|opaque|private)\s+)*)([^\s:(){}=]+(?:\s+[^\s:(){}=]+)*)\s+:\s+(\S*)")
TOKEN = re.compile(r"[^\s(){}\[\];,.`\"|@]+")
GHOST = re.compile(r"^\s*(ghost\b|requires|ensures|invariant)")


def snake(name, words):
    """A dash stays where it joins the names of two definitions, and beside an operator."""
    if name in OWN:
        return OWN[name]
    parts = name.split("-")
    if parts[-1] == "spec":
        return name.replace("-", "_")
    text = plain(parts[0])
    for i, part in enumerate(parts[1:], 1):
        joins = {parts[i - 1], "-".join(parts[:i])} & words and {part, "-".join(parts[i:])} & words
        operator = not re.match(r"\w", part) or not re.search(r"[\w']$", parts[i - 1])
        text += ("-" if joins or operator else "_") + plain(part)
    return text


def plain(part):
    return re.sub(r"([a-z0-9])([A-Z])", lambda m: m.group(1) + "_" + m.group(2).lower(), part) if part[:1].islower() else part


def files(ending):
    for top in ("crates",):
        for folder, dirs, names in os.walk(top):
            dirs[:] = sorted(d for d in dirs if d != "out")
            for name in sorted(names):
                if name.endswith(ending):
                    yield os.path.join(folder, name)


def read(path):
    with open(path, encoding="utf-8") as f:
        return f.read()


def declared():
    """The names that files declare or give by `as`, those of them that are fields of records, and those that specs/ defines."""
    names, fields, words = set(), set(), set()
    for path in files(".antt"):
        record = None
        for line in read(path).split("\n"):
            if line.strip().startswith("--"):
                continue
            indent = len(line) - len(line.lstrip())
            if line.strip() and record is not None and indent <= record:
                record = None
            m = DECLARED.match(line)
            if m and not (path.endswith("Proof.antt") and m.group(4).startswith("tie.")):
                for n in m.group(3).split():
                    names.add(n)
                    if record is not None:
                        fields.add(n)
                    elif not indent and "/specs/" in path:
                        words.add(n)
            if re.match(r"\s*(pub\s+)?record\b", line):
                record = indent
    for path in list(files(".antt")) + list(files(".rt")):
        for what in re.findall(r"\buse\s+[^\s{]+\.\{([^}]*)\}", read(path)):
            names |= set(re.findall(r"\bas ([^\s,]+)", what))
    return names, fields, words


def library():
    """The names that files take from the kit."""
    found = set()
    for path in list(files(".antt")) + list(files(".rt")):
        for where, what in re.findall(r"\buse\s+([\w.'+◌-]+)\.\{([^}]*)\}", read(path)):
            if not re.match(r"Rattle\.(%s)\." % "|".join(OURS), where):
                found |= {n.split(" as ")[0].strip() for n in what.split(",")}
    return found


OURS = sorted(os.listdir("crates"))


def renames():
    names, fields, words = declared()
    kit = library()
    words = {n for n in words | kit if "-" not in n}
    table = dict(BOUND)
    for n in sorted(names):
        if n[0].islower() and n not in kit and snake(n, set() if n in fields else words) != n:
            table[n] = snake(n, set() if n in fields else words)
    return table, fields


def turned(text, table, fields, backticks=False):
    """A text of antt with the names of the table in their new spelling."""
    out, last = [], 0
    for m in TOKEN.finditer(text):
        t = m.group(0)
        new = table.get(t)
        if new is None:
            continue
        before = text[: m.start()]
        if before.endswith(".") and not re.search(r"(^|[^\w.'+-])[A-Z][\w'+-]*(\.[\w'+-]+)*\.$", before) and t not in fields:
            continue
        out.append(text[last : m.start()])
        out.append(new)
        last = m.end()
    return "".join(out) + text[last:]


def turned_comment(text, table, fields):
    """Only what cannot be a word of English: names with a capital inside, or between backticks."""
    text = re.sub(r"`[^`\n]*`", lambda m: turned(m.group(0), table, fields), text)
    camel = {n: s for n, s in table.items() if re.search(r"[a-z0-9][A-Z]", n)}
    return turned(text, camel, fields)


def turned_antt(text, table, fields):
    lines = []
    for line in text.split("\n"):
        code, dash, note = line.partition("--") if re.search(r"(^|\s)--(\s|$)", line) else (line, "", "")
        lines.append(turned(code, table, fields) + dash + turned_comment(note, table, fields))
    return "\n".join(lines)


def turned_rt(text, table, fields):
    """Clauses and ghost items; of comments as in antt; code stays."""
    lines, depth, ghost = [], 0, False
    for line in text.split("\n"):
        if re.match(r"\s*//", line):
            lines.append(turned_comment(line, table, fields))
            continue
        if not ghost and GHOST.match(line):
            ghost, depth = True, 0
        if ghost:
            lines.append(turned(line, table, fields))
            depth += line.count("{") - line.count("}")
            if depth <= 0 and ("}" in line or ";" in line):
                ghost = False
        else:
            lines.append(line)
    return "\n".join(lines)


def turned_edit(text, table, fields):
    lines = []
    for line in text.split("\n"):
        m = re.match(r"(old|new):(.*)$", line)
        lines.append(f"{m.group(1)}:" + turned(m.group(2), table, fields) if m else turned_comment(line, table, fields))
    return "\n".join(lines)


def pages():
    for folder in (".", "docs", "docs/changes"):
        for name in sorted(os.listdir(folder)):
            if name.endswith(".md") and not name.startswith("PORT"):
                yield os.path.join(folder, name)


def together(table):
    """Names of one file that would have one spelling."""
    for path in list(files(".antt")) + list(files(".rt")):
        text = read(path)
        here = collections.defaultdict(set)
        for m in TOKEN.finditer(text):
            here[table.get(m.group(0), m.group(0))].add(m.group(0))
        for new, olds in sorted(here.items()):
            if len(olds) > 1:
                yield path, new, sorted(olds)


def main():
    table, fields = renames()
    if "--list" in sys.argv:
        for old, new in table.items():
            print(f"{old} -> {new}")
        for path, new, olds in together(table):
            print(f"together: {path}: {new}: {' '.join(olds)}")
        return
    for ending, turn in ((".antt", turned_antt), (".rt", turned_rt), (".edit", turned_edit)):
        for path in files(ending):
            old = read(path)
            new = turn(old, table, fields)
            if new != old:
                with open(path, "w", encoding="utf-8") as f:
                    f.write(new)
    for path in pages():
        old = read(path)
        new = re.sub(r"`[^`\n]*`", lambda m: turned(m.group(0), table, fields), old)
        if new != old:
            with open(path, "w", encoding="utf-8") as f:
                f.write(new)


if __name__ == "__main__":
    main()
