#!/usr/bin/env python3
"""Prints what has to be believed: every definition that the contract of a call or of the program, or a theorem, reaches.

Run it at the top of the repository: docs/believe.py > docs/BELIEVE.md. A definition is reached if its name stands in the contract, or in the
text of a definition that is reached, or in a ghost field of a struct that is named there. Laws and proofs are the prover's business and are not
followed. Types that the code declares (structs and enums in src/) and what the prover's own libraries define are not listed.

docs/believe.py --stray prints each definition that stands in the wrong file, and ends with 1 if there is one: files named ..Laws and ..Inner have
nothing that is reached, and all other files nothing else. A form of a text has its proofs with it, so crate formats and files named ..Form are left out.
"""
import re
import sys
from pathlib import Path

# the calls, the program and the theorems, by file and function
ROOTS = [
    ("settlement/src/settle.rt", "settle"),
    ("filing/src/sheet.rt", "sheet"),
    ("filing/src/file.rt", "file"),
    ("reader/src/lib.rt", "read"),
    ("writer/src/writing.rt", "write"),
    ("outputs/src/lib.rt", "answer"),
    ("outputs/src/lib.rt", "long_input_may_be_cut"),
    ("calendar/src/dates.rt", "month_lengths_as_listed"),
    ("volumes/src/lib.rt", "examples_hold"),
    ("message/src/lib.rt", "reader_is_exact"),
    ("writer/src/round_trip.rt", "written_and_read"),
    ("reports/src/lib.rt", "sheets_and_files_agree"),
    ("reports/src/lib.rt", "such_calls_exist"),
    ("reports/src/lib.rt", "small_book_has_watts"),
    ("reports/src/lib.rt", "march_book_has_watts"),
    ("reports/src/lib.rt", "pool_files_have_watts"),
    ("filing/src/lib.rt", "no_call_sends_back_three"),
    ("toe_c/src/lib.rt", "toe_settle"),
    ("toe_c/src/lib.rt", "toe_sheet"),
    ("toe_c/src/lib.rt", "toe_file"),
    ("toe_c/src/lib.rt", "toe_read"),
    ("toe_c/src/lib.rt", "toe_write"),
]

CRATES = Path("crates")
NAME = r"[^\s(){}\[\],;:.=λ]+"
DECLARED = re.compile(rf"^\s*(?:(unfoldable|abbrev)\s+)?(pub\s+)?((?:record|data)\s+)?({NAME})\s*[:({{]")


def words(text):
    """The names in a text; one with a dot is taken apart."""
    return {w for w in re.split(r"[\s(){}\[\],;.=λ]+", text) if w}


def imports(lines, crate):
    """What a file's `use` lines bring: local name to crate, module and name there."""
    found = {}
    for line in lines:
        m = re.match(r"(?:ghost |unfoldable |pub )*use (\S+?)\.\{(.*)\};?$", line.strip())
        if not m:
            continue
        place = re.match(r"Rattle\.(\w+)\.(?:specs|proofs)\.(.+)$", m.group(1))
        for part in m.group(2).split(", "):
            name, _, other = part.partition(" as ")
            if place:
                found[other or name] = (place.group(1), place.group(2), name)
    return found


class Module:
    """A file of specs: its definitions by name, each with its line, its kind, its text and its comment."""

    def __init__(self, crate, path):
        self.crate, self.path = crate, path
        lines = path.read_text().split("\n")
        self.imports = imports(lines, crate)
        self.definitions = {}
        start = 0
        for end in range(len(lines) + 1):
            if end < len(lines) and lines[end].strip():
                continue
            self.take(lines, start, end)
            start = end + 1

    def take(self, lines, start, end):
        """Takes the definitions of a paragraph."""
        comment, open_names = "", []
        for i in range(start, end):
            line = lines[i]
            if line.lstrip().startswith("--"):
                text = line.strip().lstrip("-").strip()
                comment = f"{comment} {text}".strip() if not open_names else comment
                continue
            if line.lstrip().startswith(("use ", "module ", "pub use ", "unfoldable pub use ")):
                continue
            m = DECLARED.match(line)
            if m and (m.group(1) or m.group(3) or m.group(2)) and not open_names:
                open_names = [m.group(4)]
                kind = m.group(1) or (m.group(3) or "law").strip()
                self.definitions[m.group(4)] = {"line": i + 1, "kind": kind, "text": line, "comment": comment}
            elif open_names:
                self.definitions[open_names[0]]["text"] += "\n" + line.split(" -- ")[0]


def modules():
    return {(path.parts[1], path.stem): Module(path.parts[1], path) for path in sorted(CRATES.glob("*/specs/*.antt"))}


def contract(path, function):
    """The names in a function's contract, and what its file's ghost imports bring."""
    lines = (CRATES / path).read_text().split("\n")
    begun = next(i for i, line in enumerate(lines) if re.search(rf"\bfn {function}\(", line))
    text = []
    for line in lines[begun:]:
        if line.strip() in ("{", "{}"):
            break
        if text or line.lstrip().startswith(("requires", "ensures")):
            text.append(line)
    return words("\n".join(text)), imports(lines, path.split("/")[0])


def facts(crate, name):
    """What the ghost fields of a struct that the crate's code declares bring."""
    for path in sorted((CRATES / crate / "src").glob("**/*.rt")):
        lines = path.read_text().split("\n")
        begun = next((i for i, line in enumerate(lines) if re.match(rf"(pub )?struct {name}\b", line)), None)
        if begun is None:
            continue
        end = next((i for i in range(begun, len(lines)) if lines[i].startswith("}")), begun)
        fields = [line for line in lines[begun:end] if re.match(r"\s*(pub )?ghost ", line)]
        known = imports(lines, crate)
        return [known[word] for word in words("\n".join(fields)) if word in known]
    return []


def reached(all_modules):
    todo, seen, structs = [], set(), set()
    for path, function in ROOTS:
        names, known = contract(path, function)
        todo += [known[name] for name in names if name in known]
    while todo:
        crate, module, name = todo.pop()
        home = all_modules.get((crate, module))
        if module.startswith("declared") and (crate, module, name) not in structs:
            structs.add((crate, module, name))
            todo += facts(crate, name)
        if home is None or (crate, module, name) in seen:
            continue
        if name not in home.definitions:
            if name in home.imports:
                todo.append(home.imports[name])
            continue
        if home.definitions[name]["kind"] == "law":
            continue
        seen.add((crate, module, name))
        for word in words(home.definitions[name]["text"]):
            if word in home.definitions and word != name:
                todo.append((crate, module, word))
            elif word in home.imports:
                todo.append(home.imports[word])
    return seen


def stray(all_modules, found):
    """The definitions that their file's name puts on the wrong side."""
    for (crate, name), module in all_modules.items():
        if crate == "formats" or name.endswith("Form"):
            continue
        inner = name.endswith(("Laws", "Inner"))
        for definition, known in module.definitions.items():
            if known["kind"] != "law" and ((crate, name, definition) in found) == inner:
                yield f"{module.path}:{known['line']}: {definition} is {'reached' if inner else 'not reached'}"


def main():
    all_modules = modules()
    found = reached(all_modules)
    if sys.argv[1:] == ["--stray"]:
        lines = list(stray(all_modules, found))
        print("\n".join(lines))
        sys.exit(1 if lines else 0)
    order = [line.split(":")[0].split()[0] for line in Path("crates.txt").read_text().split("\n") if ":" in line and not line.startswith("#")]
    print("# What has to be believed\n")
    print("Every definition that the contract of a call or of the program, or a theorem, reaches; `docs/believe.py` prints this page. All else is")
    print(f"proved about these, and about the structs and enums that src/ declares, which are not listed here. {len(found)} definitions.")
    for crate in order:
        mine = sorted((all_modules[key[:2]].path, all_modules[key[:2]].definitions[key[2]]["line"], key[2]) for key in found if key[0] == crate)
        if not mine:
            continue
        print(f"\n## {crate}\n\n| definition | where | says |\n|---|---|---|")
        for path, line, name in mine:
            definition = all_modules[(crate, path.stem)].definitions[name]
            says = definition["comment"].replace("|", "\\|")
            print(f"| `{name}` | {path.stem} {line} | {says} |")


main()
