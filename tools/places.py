#!/usr/bin/env python3
"""Lists the places in crates/*/src that docs/DESIGN-PASS.md counts, point by point: tools/places.py [POINT..] [-q].

1 enums, and flags or marks with a value beside them, and numbers that stand for a refusal, a kind, a direction or a section
2 functions of one shape: the same tokens, names, types and constants apart
3 loops by hand (while, loop)
4 equality, order, copies, conversions and printing by hand
5 a fact in the clauses of three functions or more; two parameters that stand together in three functions or more
6 a buffer with its length, or how much of it counts, beside it
7 a flag or a kind that decides which step is run
8 answers: proof files by function, and their lines

-q prints the counts alone."""
import collections
import glob
import re
import sys

KEYWORDS = {"fn", "let", "mut", "if", "else", "while", "for", "in", "return", "match", "as", "pub", "const", "loop", "break", "true", "false", "self", "Self"}


def sources():
    for path in sorted(glob.glob("crates/*/src/**/*.rt", recursive=True)):
        with open(path, encoding="utf-8") as it:
            yield path, it.read()


def blanked(text):
    """Comments away, the length of each line kept."""
    return re.sub(r"//[^\n]*", lambda m: " " * len(m[0]), text)


def line_of(text, at):
    return text.count("\n", 0, at) + 1


class Function:
    def __init__(self, path, line, name, parameters, result, clauses, body):
        self.path, self.line, self.name = path, line, name
        self.parameters, self.result, self.clauses, self.body = parameters, result, clauses, body

    def where(self):
        return f"{self.path}:{self.line} {self.name}"


def close(text, at, opens, closes):
    depth = 0
    for i in range(at, len(text)):
        depth += (text[i] == opens) - (text[i] == closes)
        if depth == 0:
            return i
    return len(text) - 1


def parted(text):
    """Splits at commas that stand in no bracket."""
    parts, depth, part = [], 0, ""
    for c in text:
        depth += (c in "([{<") - (c in ")]}>")
        if c == "," and depth == 0:
            parts.append(part)
            part = ""
        else:
            part += c
    return [it.strip() for it in [*parts, part] if it.strip()]


def functions():
    for path, whole in sources():
        text = blanked(whole)
        for m in re.finditer(r"\bfn (\w+)", text):
            at = text.find("(", m.end())
            end = close(text, at, "(", ")")
            rest = text[end + 1 :]
            first = re.search(r"\b(requires|ensures)\b|\{|;", rest)
            if not first or first[0] == ";":
                continue
            result = rest[: first.start()]
            clauses, i = [], end + 1 + first.start()
            while True:
                c = re.match(r"\s*(requires|ensures)\*?( \w+)? *\{", text[i:])
                if not c:
                    break
                opened = i + c.end() - 1
                closed = close(text, opened, "{", "}")
                clauses.append((c[1], text[opened + 1 : closed].strip()))
                i = closed + 1
            opened = text.find("{", i)
            closed = close(text, opened, "{", "}")
            yield Function(path, line_of(text, m.start()), m[1], parted(text[at + 1 : end]), result, clauses, text[opened : closed + 1])


def tokens(text):
    return re.findall(r'b?"(?:[^"\\]|\\.)*"|b\'(?:[^\'\\]|\\.)+\'|\d[\w_]*|\w+|[^\w\s]', text)


def shape(f):
    said = []
    for t in tokens(f.body):
        if re.match(r"b?\"|b'|\d", t):
            said.append("N")
        elif re.match(r"\w", t) and t not in KEYWORDS:
            said.append("I")
        else:
            said.append(t)
    return " ".join(re.sub(r"I(?: : : I)+", "I", " ".join(said)).split())


def say(point, what, places, quiet):
    print(f"{point}. {what}: {len(places)}")
    if not quiet:
        for it in places:
            print(f"    {it}")


def grep(pattern):
    found = []
    for path, whole in sources():
        text = blanked(whole)
        for m in re.finditer(pattern, text, re.M):
            line = line_of(text, m.start())
            found.append(f"{path}:{line} {' '.join(m[0].split())}")
    return found


def point_1(quiet):
    say(1, "enums", grep(r"^\s*(pub )?enum \w+ \{[^}]*\}"), quiet)
    say(1, "a flag or a mark in a struct", [it for it in grep(r"^\s*(pub )?struct \w+(<[^>]*>)? \{[^}]*\}") if re.search(r": (bool|Mark|Cursor)\b", it)], quiet)
    say(1, "numbers for refusals", grep(r"(Refused|refused|refusal_code)\((\w+, )?\d+,[^)]*\)|Refused\((u64, usize|number, \w+)\)"), quiet)
    say(1, "numbers for kinds, directions and sections", grep(r"\b(kind|supply|delivery): u(8|64)\b|\bsection\(\w+, \d\)|\bextent_is\(\w+, \d"), quiet)


def point_2(quiet):
    groups = collections.defaultdict(list)
    for f in functions():
        if len(tokens(f.body)) >= 9:
            groups[shape(f)].append(f)
    places = [f"{len(g)} of one shape: " + ", ".join(f.where() for f in g) for g in groups.values() if len(g) > 1]
    say(2, "groups of functions of one shape", places, quiet)
    say(2, "functions in them", [f.where() for g in groups.values() if len(g) > 1 for f in g], True)


def point_3(quiet):
    say(3, "loops by hand", grep(r"^\s*(while|loop)\b[^\n]*"), quiet)


def point_4(quiet):
    names = r"larger|smaller|same_\w+|is_up|is_off_take|is_digit|is_name_byte|between|is_within|magnitude|signed|clamp|nibble|less_one|sum|number_behind|end_number|month_name"
    places = [f.where() for f in functions() if re.fullmatch(names, f.name)]
    say(4, "comparisons, bounds and signs by hand", places, quiet)
    convert = [f.where() for f in functions() if re.search(r"\bmatch\b", f.body) and re.search(r"\b\d+ =>|=> \d+,", f.body)]
    say(4, "matches between numbers and enums", convert, quiet)
    say(4, "enums and structs that derive Clone and Copy alone", grep(r"#\[derive\(Clone, Copy\)\]\s*(pub )?(enum|struct) \w+"), quiet)


def conjuncts(text):
    parts, depth, part = [], 0, ""
    for c in text:
        depth += (c in "([{") - (c in ")]}")
        if c == "×" and depth == 0:
            parts.append(part)
            part = ""
        else:
            part += c
    return [re.sub(r"^\((.*)\)$", r"\1", " ".join(it.split())) for it in [*parts, part] if it.strip()]


def point_5(quiet):
    facts = collections.defaultdict(set)
    pairs = collections.defaultdict(set)
    for f in functions():
        for kind, text in f.clauses:
            if kind == "requires":
                for it in conjuncts(text):
                    facts[it].add(f.where())
        named = [re.sub(r"\s+", " ", it) for it in f.parameters if ":" in it and not it.startswith("rt:")]
        for i, a in enumerate(named):
            for b in named[i + 1 :]:
                pairs[(a, b)].add(f.where())
    say(5, "facts in three requires or more", [f"{len(v)}: {k}" for k, v in sorted(facts.items(), key=lambda it: -len(it[1])) if len(v) > 2], quiet)
    say(5, "pairs of parameters in three functions or more", [f"{len(v)}: {a}, {b}" for (a, b), v in sorted(pairs.items(), key=lambda it: -len(it[1])) if len(v) > 2], quiet)
    say(5, "functions of seven parameters or more", [f"{len(f.parameters)}: {f.where()}" for f in functions() if len(f.parameters) > 6], quiet)


def point_6(quiet):
    places = []
    for f in functions():
        said = " ".join(f.parameters)
        if re.search(r": &(mut )?\[", said) and re.search(r"\b(n|x|count|left|lent|size|end): usize", said):
            places.append(f.where())
    say(6, "buffers with a length beside them", places, quiet)


def point_7(quiet):
    say(7, "functions with a flag for a parameter", [f.where() for f in functions() if any(it.endswith(": bool") for it in f.parameters)], quiet)
    say(7, "matches on a kind or a method", [f.where() for f in functions() if re.search(r"\b(Kind::Toe01|Method::LastQuarter) =>", f.body)], quiet)


def point_8(quiet):
    files = sorted(glob.glob("crates/*/proofs/**/Answers.antt", recursive=True)) + sorted(glob.glob("crates/*/proofs/**/Proof.antt", recursive=True))
    lines = 0
    for it in files:
        with open(it, encoding="utf-8") as text:
            lines += sum(1 for _ in text)
    say(8, "files of answers", files, quiet)
    print(f"8. their lines: {lines}")


def main():
    quiet = "-q" in sys.argv
    wanted = [int(it) for it in sys.argv[1:] if it.isdigit()] or list(range(1, 9))
    for n in wanted:
        globals()[f"point_{n}"](quiet)


main()
