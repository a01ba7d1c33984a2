#!/usr/bin/env python3
"""snake_names.py [--say]: brings the repository's own definitions and lemmas to snake case, once, right behind port.py.

Run at the top of the repository. Every name that a file of specs/ or a file of lemmas in proofs/ declares in camel case or with dashes gets
the spelling of today's library: words in snake case, types and modules in camel case. Functions of src/, exported names, strings, inputs and
outputs keep their names. Uses follow in .antt files, in the clauses and imports of .rt files, in the edits of must-fail/ and, between
backticks, in the papers. Names that would fall together are listed, and keep apart by the table APART. With --say nothing is written.
"""
import os
import re
import sys

# old name: another new name than its snake case, where that is taken in a file that has it
APART = {
    "failsBy": "fails_by_logs",
    "fourBytes": "bytes_of_four",
    "twoBytes": "bytes_of_two",
    "getOr": "or_given",
    "listOver": "list_from",
    "numberBy": "number_from",
    "sameNumber": "same_number_of",
}

KIND = r"(?:(?:abbrev|unfoldable|pub|private|constructor|instance)\s+)*"
HEAD = re.compile(r"^\s*" + KIND + r"([A-Za-z][\w'\-]*(?:\s+[A-Za-z][\w'\-]*)*)\s*(?:[{(][^:]*[)}]\s*)?:(?:\s|$)")
TOKEN = re.compile(r"(?<![\w'\-·])[A-Za-z][\w'\-]*")
FREE = re.compile(r"(?<![\w'\-·.:])[A-Za-z][\w'\-]*(?![\w'\-]|\.[\w{]|::)")
FIELD = re.compile(r"\bfn (\w+)|\b(?:pub )?(\w+):")
WORDS = {"module", "use", "where", "let", "in", "record", "data", "mod", "if", "then", "else", "unfolding"}


def snake(name):
    name = name.replace("getD", "get_or").replace("-", "_")
    name = re.sub(r"([a-z0-9])([A-Z])", r"\1_\2", name)
    return re.sub(r"_+", "_", name).lower()


def to_turn(name):
    return name[0].islower() and ("-" in name or re.search(r"[a-z0-9][A-Z]", name))


def files(ends, tops):
    for top in tops:
        if os.path.isfile(top):
            yield top
            continue
        for folder, dirs, names in os.walk(top):
            dirs[:] = sorted(d for d in dirs if d not in ("out", ".git", "target"))
            for n in sorted(names):
                if n.endswith(ends):
                    yield os.path.join(folder, n)


def lemma_file(path):
    parts = path.split("/")
    return "specs" in parts[2:3] or (parts[2] == "proofs" and len(parts) == 4)


def declared():
    found = {}
    for p in files(".antt", ["crates"]):
        if not lemma_file(p):
            continue
        with open(p, encoding="utf-8") as f:
            for line in f:
                m = HEAD.match(line)
                if m and not line.lstrip().startswith(("use ", "--", "module ")):
                    for n in m.group(1).split():
                        if n not in WORDS and to_turn(n):
                            found.setdefault(n, set()).add(p)
    return found


def strip_strings(line):
    """the parts of a line of Rust: (text, whether names may be turned in it)"""
    parts, i, start, quote = [], 0, 0, False
    while i < len(line):
        c = line[i]
        if quote:
            if c == "\\":
                i += 1
            elif c == '"':
                parts.append((line[start:i + 1], False))
                start, quote = i + 1, False
        elif c == '"':
            parts.append((line[start:i], True))
            start, quote = i, True
        elif line.startswith("//", i):
            parts.append((line[start:i], True))
            parts.append((line[i:], None))
            return parts
        i += 1
    parts.append((line[start:], not quote))
    return parts


def turn_tokens(text, table):
    return TOKEN.sub(lambda m: table.get(m.group(0), m.group(0)), text)


def turn_ticks(text, table):
    return re.sub(r"`[^`\n]+`", lambda m: turn_tokens(m.group(0), table), text)


def turn_rust(text, table):
    out = []
    for line in text.splitlines(keepends=True):
        for part, kind in strip_strings(line):
            out.append(turn_tokens(part, table) if kind else turn_ticks(part, table) if kind is None else part)
    return "".join(out)


def turn_edit(text, table):
    antt, out = False, []
    for line in text.splitlines(keepends=True):
        if line.startswith("file:"):
            antt = line.rstrip().endswith(".antt")
        elif line.startswith(("old:", "new:")):
            head, body = line[:4], line[4:]
            line = head + (turn_tokens(body, table) if antt else turn_rust(body, table))
        out.append(line)
    return "".join(out)


def main(argv):
    say = "--say" in argv
    found = declared()
    table = {n: APART.get(n, snake(n)) for n in found}
    texts = {p: open(p, encoding="utf-8").read() for p in files((".antt", ".rt"), ["crates"])}
    uses = {}
    for p, t in texts.items():
        if p.endswith("Proof.antt"):
            continue
        if p.endswith(".rt"):
            t = "".join(part for line in t.splitlines(keepends=True) for part, kind in strip_strings(line) if kind)
        uses[p] = set(FREE.findall(t))
        if p.endswith(".rt"):
            # a function and a word may have one name; a parameter or a variable hides the word
            uses[p] -= {f for f in re.findall(r"\bfn (\w+)", t) if not re.search(r"[(,|]\s*(?:mut )?%s:|\blet (?:mut )?%s\b|^\s*(?:pub )?%s:" % (f, f, f), t, re.M)}
    back = {}
    for old, new in table.items():
        back.setdefault(new, []).append(old)

    def clashes():
        for new, olds in sorted(back.items()):
            for p, tokens in uses.items():
                here = [o for o in olds if o in tokens]
                if here and (len(here) > 1 or new in tokens):
                    yield here, new, new in tokens, p

    # a lemma that would have the name of a definition gets _lem
    for here, new, there, p in list(clashes()):
        for o in here:
            if "-" in o and table[o] == new:
                table[o] = new + "_lem"
    back.clear()
    for old, new in table.items():
        back.setdefault(new, []).append(old)
    bad = 0
    for here, new, there, p in clashes():
        print("falls together: %s -> %s%s in %s" % (", ".join(here), new, " (there already)" if there else "", p))
        bad += 1
    print("%d names, %d places where names fall together" % (len(table), bad))
    if say:
        return 0
    for p, t in texts.items():
        n = turn_rust(t, table) if p.endswith(".rt") else turn_tokens(t, table)
        if n != t:
            with open(p, "w", encoding="utf-8") as f:
                f.write(n)
    for p in files(".edit", ["crates"]):
        t = open(p, encoding="utf-8").read()
        n = turn_edit(t, table)
        if n != t:
            with open(p, "w", encoding="utf-8") as f:
                f.write(n)
    for p in files(".md", ["README.md", "CONTRIBUTING.md", "docs", "crates/README.md"]):
        t = open(p, encoding="utf-8").read()
        n = turn_ticks(t, table)
        if n != t:
            with open(p, "w", encoding="utf-8") as f:
                f.write(n)
    return 0


if __name__ == "__main__":
    sys.exit(main(sys.argv[1:]))
