#!/usr/bin/env python3
"""Counts, in crates/*/src, the places that read like an older Rattle, by the points of docs/DESIGN-PASS.md. Run at the project's root; with a number
from 1 to 8 it lists that point's places. It reads text alone: a place counted is a place to look at, not a fault."""
import collections, glob, os, re, sys

FILES = sorted(glob.glob("crates/*/src/**/*.rt", recursive=True))
TEXT = {f: open(f).read() for f in FILES}
START = re.compile(r"^( *)(pub(\(crate\))? )?(extern \"C\" )?(const )?fn \w+")


def functions():
    "each function with a body: file, line, comment above it, head with its clauses, body"
    for f in FILES:
        ls = TEXT[f].split("\n")
        i = 0
        while i < len(ls):
            m = START.match(ls[i])
            if not m:
                i += 1
                continue
            pad = m.group(1)
            c = i
            while c > 0 and ls[c - 1].startswith(pad + ("//", "#[")[0]) or c > 0 and ls[c - 1].startswith(pad + "#["):
                c -= 1
            j = i
            while j < len(ls) and ls[j] != pad + "{" and not (ls[j].endswith(" {") and not re.match(r" *(requires|ensures)", ls[j])) and not ls[j].endswith(";"):
                j += 1
            if j >= len(ls) or ls[j].endswith(";"):
                i = j + 1
                continue
            k = j + 1
            while k < len(ls) and ls[k] != pad + "}":
                k += 1
            yield f, i + 1, "\n".join(ls[c:i]), "\n".join(ls[i : j + 1]), "\n".join(ls[j + 1 : k])
            i = k + 1


FUNCTIONS = list(functions())


def lines(pattern, keep=lambda f, l: True):
    r = re.compile(pattern)
    return [(f, n, l.strip()) for f in FILES for n, l in enumerate(TEXT[f].split("\n"), 1) if not l.strip().startswith("//") and r.search(l) and keep(f, l)]


def name(head):
    return re.search(r"fn (\w+)", head).group(1)


def own_enums():
    "enums of the repository's own whose cases are a value and a want of one, or a value and a refusal"
    out = []
    for f in FILES:
        for m in re.finditer(r"^\s*(?:pub(?:\(crate\))? )?enum (\w+) \{(.*?)^\s*\}", TEXT[f], re.M | re.S):
            cases = re.findall(r"^\s*(\w+)(\([^)]*\))?,", m.group(2), re.M)
            if len(cases) > 1 and any(c[1] for c in cases) and re.search(r"\b(None|Done|Missing|Nothing|Refused|Wrong|Bad|Empty|Taken|Failed|Long|NoNumber|End)\b", m.group(2)):
                out.append((f, TEXT[f].count("\n", 0, m.start()) + 1, "enum " + m.group(1)))
    return out


def flags():
    "a flag in a struct with the value that it speaks of beside it"
    return lines(r"^\s+(pub(\(crate\))? )?(has|more|ok|verdict): (bool|Verdict),")


def numbers_for_refusals():
    "functions that answer a refusal, a kind or a state by a number"
    out = []
    for f, n, c, h, b in FUNCTIONS:
        if re.search(r"-> (u8|u16|usize|i32)\b", h) and re.search(r"0 if (it|none|they)|0 where (it|there|none)|; 0 if|0 for none|0 is taken|-1 where|none does|state", c + h):
            out.append((f, n, "fn " + name(h)))
    return out


def state_numbers():
    "numbers that stand for a state or a kind"
    return lines(r"^(pub(\(crate\))? )?const [A-Z_]+: u8 = \d+;") + lines(r"\blet (mut )?state(: u8)? = |\bstate: u8\b")


def twins():
    "functions of one shape: the same code but for names and numbers (four lines of code and more); all but the first of each"
    groups = collections.defaultdict(list)
    for f, n, c, h, b in FUNCTIONS:
        code = [re.sub(r"//.*", "", l).strip() for l in b.split("\n")]
        code = [l for l in code if l and l not in "{}"]
        if len(code) < 4 or "quieuvodan" in f:
            continue
        seen = {}
        shape = re.sub(r"b?\"[^\"]*\"|\b0x[0-9A-Fa-f]+\b|\b\d+(?:u\d+|usize)?\b", "0", "\n".join(code))
        shape = re.sub(r"\b[a-zA-Z_]\w*\b", lambda m: m.group(0) if m.group(0) in KEY else seen.setdefault(m.group(0), "v%d" % len(seen)), shape)
        groups[shape].append((f, n, "fn " + name(h)))
    return [p for g in groups.values() if len(g) > 1 for p in g[1:]]


KEY = set("let mut if else while for in return match as fn pub true false loop break continue".split())


def loops():
    "loops that are no `for`"
    return lines(r"\bwhile\b|\bloop \{")


def by_hand():
    "equality, conversion and copying by hand: bytes of a number, functions same_.., structs built again field by field"
    out = lines(r"/ 256\b|% 256\b|/ 65536\b|% 65536\b|\* 256\b|256 \* |65536 \* ")
    out += [(f, n, "fn " + name(h)) for f, n, c, h, b in FUNCTIONS if re.match(r"same|is_same", name(h))]
    for f, n, c, h, b in FUNCTIONS:
        if re.search(r"(?:^\s+(\w+): (\w+)\.\1,\n){4,}", b, re.M):
            out.append((f, n, "fn " + name(h) + ": a struct built again"))
    return out


def repeated_facts():
    "facts that stand in the requires of three functions and more, and pairs of parameters that go through eight and more"
    facts = collections.defaultdict(list)
    pairs = collections.defaultdict(list)
    for f, n, c, h, b in FUNCTIONS:
        for r in re.findall(r"requires (?:\w+ )?\{ (.*?) \}\n", h + "\n"):
            for part in re.split(r"\) × \(|^\(|\)$| × ", r):
                if part:
                    facts[part].append((f, n, "fn " + name(h)))
        ps = re.findall(r"(\w+: [^,()]+)(?=[,)])", h[h.index("(") :].split(")")[0] + ")")
        for a, d in zip(ps, ps[1:]):
            pairs[a + ", " + d].append((f, n, "fn " + name(h)))
    return [(v[0][0], v[0][1], "%d times: %s" % (len(v), k)) for k, v in facts.items() if len(v) >= 3] + [
        (v[0][0], v[0][1], "%d times: %s" % (len(v), k)) for k, v in pairs.items() if len(v) >= 8]


def rooms():
    "functions over a buffer with a cursor or a length beside it, and structs of an array with its count"
    out = [(f, n, "fn " + name(h)) for f, n, c, h, b in FUNCTIONS if re.search(r"room: &mut \[\w+\],\s+at: usize|: &mut \[\w+\],\s+(?:n|len|used|count): usize", h)]
    for f in FILES:
        for m in re.finditer(r"^\s*(?:pub(?:\(crate\))? )?struct (\w+)[^{;]*\{(.*?)^\s*\}", TEXT[f], re.M | re.S):
            if re.search(r": \[", m.group(2)) and re.search(r"\b(count|used|len|n): ", m.group(2)):
                out.append((f, TEXT[f].count("\n", 0, m.start()) + 1, "struct " + m.group(1)))
    return out


def switches():
    "functions that go by a number for the step or the kind: three tests of it and more"
    out = []
    for f, n, c, h, b in FUNCTIONS:
        for k in set(re.findall(r"\bif (\w+) == [0-9A-Z]", b)):
            if len(re.findall(r"\bif %s == [0-9A-Z]" % k, b)) >= 3:
                out.append((f, n, "fn %s: by %s" % (name(h), k)))
    return out


def proofs():
    "proof files, and their lines"
    fs = glob.glob("crates/*/proofs/**/*.antt", recursive=True)
    return [(f, 0, str(open(f).read().count("\n"))) for f in sorted(fs)]


POINTS = {
    "1": [own_enums, flags, numbers_for_refusals, state_numbers],
    "2": [twins],
    "3": [loops],
    "4": [by_hand],
    "5": [repeated_facts],
    "6": [rooms],
    "7": [switches],
    "8": [proofs],
}

if __name__ == "__main__":
    asked = sys.argv[1:] or sorted(POINTS)
    for p in asked:
        if p not in POINTS:
            sys.exit("old_forms: no point %s (1 to 8)" % p)
        for count in POINTS[p]:
            places = count()
            extra = ", %d lines" % sum(int(x[2]) for x in places) if count is proofs else ""
            print("%s. %s: %d%s" % (p, count.__doc__, len(places), extra))
            if sys.argv[1:]:
                for f, n, what in places:
                    print("    %s:%d %s" % (f, n, what))
