#!/usr/bin/env python3
"""Lists, old and new side by side, each public function, type, definition and theorem that differs from those of a commit: tools/changed.py COMMIT [NAMES].

Functions by crate, type and name with signature and clauses; types with their fields and ghost fields; what stands in specs/ (definitions whole, theorems by their statement).
A line of NAMES, `OLD -> NEW` or `OLD -> = WORDS`, says under which name a thing stands now, or in words what states its promise, or what of it changed."""
import re
import subprocess
import sys

COMMIT = sys.argv[1]
NAMES = {}
if len(sys.argv) > 2:
    with open(sys.argv[2], encoding="utf-8") as it:
        for line in it:
            if "->" in line and not line.startswith("#"):
                old, new = line.split("->", 1)
                NAMES[old.strip()] = new.strip()


def now():
    out = subprocess.run(["git", "ls-files", "crates"], stdout=subprocess.PIPE, text=True).stdout.split()
    for path in out:
        if re.search(r"/(src/.*\.rt|specs/.*\.antt|proofs/[^/]*\.antt)$", path):
            try:
                with open(path, encoding="utf-8") as it:
                    yield path, it.read()
            except FileNotFoundError:
                pass


def then():
    out = subprocess.run(["git", "ls-tree", "-r", "--name-only", COMMIT, "crates"], stdout=subprocess.PIPE, text=True).stdout.split()
    paths = [p for p in out if re.search(r"/(src/.*\.rt|specs/.*\.antt|proofs/[^/]*\.antt)$", p)]
    feed = "".join(f"{COMMIT}:{p}\n" for p in paths)
    data = subprocess.run(["git", "cat-file", "--batch"], input=feed.encode(), stdout=subprocess.PIPE).stdout
    at = 0
    for p in paths:
        end = data.index(b"\n", at)
        size = int(data[at:end].split()[2])
        yield p, data[end + 1 : end + 1 + size].decode()
        at = end + 1 + size + 1


def close(text, at, opens, closes):
    depth = 0
    for i in range(at, len(text)):
        depth += (text[i] == opens) - (text[i] == closes)
        if depth == 0:
            return i
    return len(text) - 1


def flat(text):
    text = re.sub(r"//[^\n]*", " ", text)
    text = " ".join(text.split())
    return re.sub(r",\s*([)\]}])", r"\1", text).replace("( ", "(").replace(" )", ")")


def code(path, whole, found):
    crate = path.split("/")[1]
    text = re.sub(r"//[^\n]*", lambda m: " " * len(m[0]), whole)
    blocks = []
    for m in re.finditer(r"^(impl\b[^{;]*|pub trait (\w+)[^{;]*|trait (\w+)[^{;]*)\{", text, re.M):
        end = close(text, m.end() - 1, "{", "}")
        head = " ".join(m[1].split())
        t = m[2] or m[3]
        if not t:
            said = re.sub(r"^impl(<[^>]*>)?\s*", "", head)
            t = re.sub(r"<'\w+>", "", said.split(" where ")[0]).strip()
        blocks.append((m.start(), end, t, head.startswith("pub trait") or " for " in head))
    for m in re.finditer(r"^([ \t]*)(pub(?:\([^)]*\))? )?(extern \"C\" )?fn (\w+)", text, re.M):
        at = text.find("(", m.end())
        end = close(text, at, "(", ")")
        i = end + 1
        first = re.search(r"\b(requires|ensures)\b|\{|;", text[i:])
        result = text[i : i + first.start()]
        clauses, i = [], i + first.start()
        while True:
            c = re.match(r"\s*((?:requires|ensures)\*?(?: \w+)?) *\{", text[i:])
            if not c:
                break
            closed = close(text, i + c.end() - 1, "{", "}")
            clauses.append(flat(text[i : closed + 1]))
            i = closed + 1
        inside = [b for b in blocks if b[0] < m.start() < b[1]]
        of = f"{inside[-1][2]}::" if inside else ""
        public = bool(m[2]) or bool(inside and inside[-1][3])
        if not public or m[4] == "main":
            continue
        signature = flat(f"fn {m[4]}" + text[m.end() : end + 1] + " " + result)
        found[f"{crate} fn {of}{m[4]}"] = [signature, *clauses]
    for m in re.finditer(r"^pub (struct|enum|trait|const|type) (\w+)", text, re.M):
        kind, name = m[1], m[2]
        brace, semi = text.find("{", m.end()), text.find(";", m.end())
        if kind in ("const", "type") or (semi != -1 and (brace == -1 or semi < brace)):
            body = text[m.start() : semi + 1]
        else:
            body = text[m.start() : close(text, brace, "{", "}") + 1]
        if kind == "trait":
            body = re.sub(r"\bfn [^;{]*[;{]", "", body)
        before = re.search(r"#\[derive\(([^)]*)\)\]\s*$", text[: m.start()])
        found[f"{crate} {kind} {name}"] = [flat(body)]


def said(path, whole, found):
    crate, in_specs = path.split("/")[1], "/specs/" in path
    module = path.rsplit("/", 1)[1][:-5]
    lines = whole.split("\n")
    head = r"^\s*(?:(unfoldable|abbrev|data|record|ruleset) )?(pub )?(data |record )?([^\s:{}(]+)\s*(?:[({:].*)?$"
    i = 0
    while i < len(lines):
        m = re.match(r"^( *)(?:(unfoldable|abbrev) )?pub (data |record |instance )?(\S+)(?= [:({])", lines[i])
        if not m or lines[i].startswith(("use ", "pub use", "pub mod")):
            i += 1
            continue
        name, kind = m[4], (m[2] or (m[3] or "").strip() or "theorem")
        pad = m[1]
        block = [lines[i]]
        j = i + 1
        while j < len(lines) and lines[j].strip() and not lines[j].lstrip().startswith("--"):
            n = re.match(r"^( *)(?:(?:unfoldable|abbrev) )?pub (?:data |record )?\S+ [:({]", lines[j])
            if n and (kind != "record" or len(n[1]) <= len(m[1])):
                break
            block.append(lines[j])
            j += 1
        if kind == "theorem":
            statement = []
            for k, l in enumerate(block):
                if k and (re.match(rf"^{pad}(unfolding\b|{re.escape(name)}\b)", l) or l.strip() == "where"):
                    break
                statement.append(l)
            block = statement
            if not in_specs:
                found.setdefault(("law", crate, name), (module, [" ".join(" ".join(block).split())]))
                i = j
                continue
        if in_specs:
            found[f"{crate} {'theorem' if kind == 'theorem' else 'definition'} {module}.{name}"] = [" ".join(" ".join(block).split()) if kind == "theorem" else " ".join("; ".join(x.strip() for x in block).split())]
        i = j


def all_of(source):
    found = {}
    for path, text in source:
        if path.endswith(".rt"):
            code(path, text, found)
        else:
            said(path, text, found)
    return found


old, new = all_of(then()), all_of(now())
laws = {k: v for k, v in new.items() if isinstance(k, tuple)}
names_now = {}
for k in new:
    if isinstance(k, str):
        kind, name = k.split(" ", 1)[1].split(" ", 1)
        names_now.setdefault((k.split(" ")[0], kind, name.split(".")[-1].split("::")[-1]), []).append(k)

changed, moved, gone = [], [], []
used = set()
for k, v in old.items():
    if not isinstance(k, str):
        continue
    if k in new:
        used.add(k)
        if new[k] != v:
            changed.append((k, v, k, new[k]))
        continue
    to = NAMES.get(k)
    if to and not to.startswith("="):
        if to in new:
            used.add(to)
            changed.append((k, v, to, new[to]))
            continue
    if to:
        gone.append((k, v, to.lstrip("= ")))
        continue
    crate, kind, name = k.split(" ", 2)
    last = name.split(".")[-1].split("::")[-1]
    if kind == "theorem":
        law = laws.get(("law", crate, last)) or next((x for (w, c, n), x in laws.items() if n == last), None)
        if law:
            if law[1] == v:
                moved.append((k, law[0]))
            else:
                changed.append((k, v, f"proofs {law[0]}.{last}", law[1]))
            continue
    near = names_now.get((crate, kind, last), [])
    if len(near) == 1:
        used.add(near[0])
        if new[near[0]] == v:
            moved.append((k, near[0]))
        else:
            changed.append((k, v, near[0], new[near[0]]))
        continue
    gone.append((k, v, ""))
fresh = [k for k in new if isinstance(k, str) and k not in used and k not in old]

print(f"<!-- changed {len(changed)}, moved {len(moved)}, gone {len(gone)}, new {len(fresh)} -->")


def block(title, it):
    print(f"- {title}")
    for line in it:
        print(f"  `{line}`")


for part, label in (("fn", "Functions"), ("struct|enum|trait|const|type", "Types"), ("definition", "Definitions"), ("theorem", "Theorems of specs/")):
    print(f"\n### {label}\n")
    for k, v, to, w in changed:
        if re.fullmatch(part, k.split(" ")[1]):
            words = NAMES.get(k, "")
            print(f"- {k}" + ("" if to == k else f" → {to}") + (f": {words.lstrip('= ')}" if words.startswith("=") else ""))
            same = [x for x in v if x in w]
            for x in v:
                if x not in same:
                    print(f"  - old: `{x}`")
            for x in w:
                if x not in same:
                    print(f"  - new: `{x}`")
    for k, v, words in gone:
        if re.fullmatch(part, k.split(" ")[1]):
            print(f"- {k}: gone" + (f": {words}" if words else " (?)"))
            for x in v:
                print(f"  - old: `{x}`")
    some = [k for k in fresh if re.fullmatch(part, k.split(" ")[1])]
    for k in some:
        print(f"- new: {k}")
        for x in new[k]:
            print(f"  - `{x}`")
