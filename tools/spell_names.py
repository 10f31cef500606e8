#!/usr/bin/env python3
"""Spells this repository's own names as today's Rattle does: words in snake case, a lemma's words parted by dashes.

usage: spell_names.py, at the top of the repository, once, behind port.py

What turns, in specs/, proofs/, the clauses of src/, must-fail/ and the code spans of the pages:
  a definition or lemma in camel case        monthLength, upTo-cong  ->  month_length, up_to-cong
  a field of a record with dashes            lengths-as-listed       ->  lengths_as_listed
  a lemma that port.py spelled as a word of the library's of the same name and that is now a definition's name
                                             too_few                 ->  too-few
Names of src/, strings, inputs and outputs stay. It stops where two names would fall together.
"""
import collections
import glob
import os
import re
import subprocess
import sys

WORD = re.compile(r'[^\s(){}.;,@"«»`:\[\]|/*…]+')
MARKS = r"(?:(?:unfoldable|abbrev|pub|record|data|mutual|pattern|module) )*"
NAMED = re.compile(rf"^( *)({MARKS})([^\s:(){{}}]+)(?= [({{:])")
CAMEL = re.compile(r"^[a-z][a-z0-9]*(?:[A-Z]|.*[-_][a-z0-9]+[A-Z])")
CLAUSE = re.compile(r"(?:requires|ensures|ghost)\b[^{;]*\{|ghost use\b")


def read(path):
    with open(path, encoding="utf-8", newline="") as it:
        return it.read()


def snake(name):
    return re.sub(r"(?<=[a-z0-9])([A-Z])", lambda it: "_" + it[1].lower(), name)


def files(*ends):
    listed = subprocess.run(["git", "ls-files", "-z", "--cached", "--others", "--exclude-standard"], stdout=subprocess.PIPE, check=True)
    return [it for it in listed.stdout.decode().split("\0") if it.endswith(ends) and os.path.isfile(it)]


def declared():
    """Returns the names that are defined or lemmas, the fields of records, and the names of `where` blocks."""
    tops, fields, locals_ = collections.Counter(), collections.Counter(), collections.Counter()
    for path in files(".antt"):
        record, depth = False, 0
        for line in read(path).split("\n"):
            found = NAMED.match(line)
            if not found or line.lstrip().startswith(("use ", "--", "mod ", "pub mod ")):
                continue
            indent, marks, name = len(found[1]), found[2], found[3]
            if indent <= depth:
                record = False
            if "record" in marks or "module" in marks:
                record, depth = "record" in marks, indent
            if not indent:
                tops[name] += 1
            elif marks == "pub " and record and " = " not in line.split(":")[0]:
                fields[name] += 1
            elif marks:
                tops[name] += 1
            else:
                locals_[name] += 1
    return tops, fields, locals_


def words():
    """Returns the words of specs/ and proofs/ that are no library's."""
    own = {it.split("/")[1] for it in files(".antt")}
    found, others = set(), set()
    for path in files(".antt"):
        for line in read(path).split("\n"):
            line = re.sub(r"--.*", "", line)
            used = re.match(r"use ([^\s{]+?)\.\{(.*)\}", line)
            if used and used[1].split(".")[1:2] and used[1].split(".")[1] not in own:
                others |= {*WORD.findall(used[2])}
            elif not line.startswith("use "):
                found |= {*WORD.findall(line)}
    return found - others


def table():
    tops, fields, locals_ = declared()
    every = {*tops, *fields, *locals_}
    turned = {it: snake(it) for it in every | words() if CAMEL.match(it) and snake(it) != it}
    back = {}
    for new in [*turned.values()]:
        if new in every and new not in turned:
            back[new] = new.replace("_", "-")
    for it in fields:
        if "-" in it and it not in tops:
            turned[it] = turned.get(it, it).replace("-", "_")
    both = {it for it in fields if "-" in it and it in tops}
    names = {**turned, **back}
    taken = every - {*names}
    for old, new in names.items():
        if new in taken:
            sys.exit(f"{old} and {new} would fall together")
    return names, both


def spelled(text, names, both):
    def one(found):
        it = found[0]
        end = "'" * (len(it) - len(it.rstrip("'")))
        if it in names:
            return names[it]
        # a field that is a lemma's name too turns behind a dot, before ` =` and where it is declared
        if it in both:
            before, after = text[: found.start()], text[found.end() :]
            line = before[before.rfind("\n") + 1 :]
            is_field = (before.endswith(".") and not before.endswith("..")) or re.fullmatch(r" +pub ", line) and after.startswith(" :") and in_record(before)
            is_field = is_field or re.match(r" = ", after) and re.search(r"(?:\{|;)\s*(?:--[^\n]*\s*)*$", before)
            if is_field and not re.search(r"\buse\b[^;\n]*$", line):
                return it.replace("-", "_")
        return it

    return WORD.sub(one, text)


def in_record(before):
    heads = re.findall(r"^(?:pub )?(record|module)\b", before, re.M)
    return bool(heads) and heads[-1] == "record"


def ghost_parts(text):
    """Yields the text's parts, each with whether it is a clause or a `ghost use` item."""
    at = 0
    for found in CLAUSE.finditer(text):
        if found.start() < at:
            continue
        yield text[at : found.start()], False
        if found[0].endswith("{"):
            depth, end = 1, found.end()
            while depth and end < len(text):
                depth += {"{": 1, "}": -1}.get(text[end], 0)
                end += 1
        else:
            end = text.find(";", found.end()) + 1
        yield text[found.start() : end], True
        at = end
    yield text[at:], False


def main():
    names, both = table()
    for path in files(".antt", ".rt", ".edit", ".md"):
        if not path.startswith(("crates/", "docs/", "README")):
            continue
        text = read(path)
        if path.endswith(".antt"):
            new = spelled(text, names, both)
        elif path.endswith(".rt"):
            new = "".join(spelled(it, names, both) if is_ghost else it for it, is_ghost in ghost_parts(text))
        elif path.endswith(".edit"):
            new = "\n".join(spelled(it, names, both) if it.startswith(("old:", "new:")) else it for it in text.split("\n"))
        else:
            new = re.sub(r"`[^`\n]*`", lambda it: spelled(it[0], names, both), text)
            # bare names of definitions behind a file's name, as in the tables of docs/
            new = re.sub(r"\b[a-z]+[A-Z]\w*\b", lambda it: names.get(it[0], it[0]), new)
        if new != text:
            with open(path, "w", encoding="utf-8", newline="") as it:
                it.write(new)
    print(f"{len(names)} names, and {len(both)} that are a field's and a lemma's")


main()
