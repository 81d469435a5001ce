#!/usr/bin/env python3
"""port_names.py: spells the repository's own definitions, lemmas and fields as today's Rattle does: in snake case.

Run once at the top of the repository, right after port.py. Read are the declarations of every specs/ and proofs/; turned is each of their
names that has a capital or a dash inside and begins with a small letter, in antt files, in `ghost use` items and in clauses. Types, modules,
kinds (`LCurly`) and names that begin with a type's stay. A lemma that would get the name of a definition gets `_lem` behind it. Names of
functions' answers and of what the checker makes are not touched: their files are turned by port_proofs.py.
It prints each name with its new spelling.
"""
import os
import re
import sys

NAME = r'[^\s(){}.;,@"«»\[\]|]+'
TOKEN = re.compile(rf'--[^\n]*|"(?:[^"\\\n]|\\.)*"|{NAME}')
DECLARED = re.compile(rf"(?m)^[ ]*(?:(?:pub|abbrev|unfoldable|data|record|mutual)[ ]+)*({NAME})((?:[ ]+(?:\([^()\n]*\)|\{{[^{{}}\n]*\}}))*)[ ]*:[ ]+(\S.*)?$")
USE = re.compile(r"(?m)^(?:pub )?(?:ghost )?use ([^\s;{]+?)(?:\.?\{([^}]*)\})?(?: as (\S+?))?;?[ ]*$")


def texts(root, *ends):
    for at, folders, files in os.walk(os.path.join(root, "crates")):
        folders[:] = sorted(f for f in folders if f != "out")
        for f in sorted(files):
            if f.endswith(ends):
                yield os.path.join(at, f)


def read(path):
    with open(path, encoding="utf-8") as f:
        return f.read()


def snake(name):
    out = re.sub(r"(?<=[a-z0-9'])([A-Z])", lambda m: "_" + m[1].lower(), name)
    out = re.sub(r"-([A-Z])", lambda m: "_" + m[1].lower(), out)
    return out.replace("-", "_")


def is_old(name):
    return re.match(r"[a-z]", name) and re.search(r"[A-Z-]", name) and not re.search(r"[◌⟨⟩⟦⟧·+*/<>=≤≡]", name) and re.fullmatch(r"[\w'-]+", name)


def table(root):
    crates = {c for c in os.listdir(os.path.join(root, "crates"))}
    declared, kinds, library = set(), {}, set()
    for path in [*texts(root, ".antt"), *texts(root, ".rt")]:
        text = read(path)
        for where, names, _ in USE.findall(text):
            steps = where.split(".")
            own = steps[0] == "Rattle" and len(steps) > 1 and steps[1] in crates
            if not own:
                library |= {n.split(" as ")[0].strip() for n in names.split(",")}
    for path in texts(root, ".antt"):
        is_spec = "/specs/" in path
        for name, _, kind in DECLARED.findall(read(path)):
            if name == "use" or (kind or "").startswith(("tie.", "lts.")):
                continue
            declared.add(name)
            kinds.setdefault(name, set()).add("spec" if is_spec else "proof")
    turned, taken = {}, {}
    old = sorted((n for n in declared if is_old(n) and n not in library), key=lambda n: ("-" in n, "spec" not in kinds[n], n))
    for name in old:
        new = snake(name)
        if "-" not in name and new in declared and "spec" not in kinds[new]:
            turned[new] = new + "_lem"
            taken[new + "_lem"] = new
        while new in taken or new in declared and new not in turned:
            new += "_lem"
        taken[new] = name
        turned[name] = new
    return turned, sorted(n for n in declared if is_old(n) and n in library)


# Two names that no file has both of.
APART = {"oneMore": "one_more"}
STEP = re.compile(r"(?<![\w'.-])c(?:\.before)*\.$")


def in_antt(text, turned, steps=False):
    kept = set()
    if steps:
        imported = {n.strip() for _, names, _ in USE.findall(text) for n in names.split(",")}
        kept = set(re.findall(rf"\blet ({NAME}) = c\.", text)) - imported

    def turn(m):
        if m[0] in kept or steps and STEP.search(text, max(0, m.start() - 400), m.start()):
            return m[0]
        return turned.get(m[0], m[0])

    return TOKEN.sub(turn, text)


CLAUSE = re.compile(r"\b(?:requires|ensures|ghost|invariant)\*?(?:[ ]+\w+)?(?:[ ]*[:=])?[ ]*(?=\{)")


def in_rust(text, turned):
    out, at = [], 0
    spans = [(m.start(), m.end()) for m in re.finditer(r"(?m)^[ ]*(?:pub )?ghost use [^;]*;", text)]
    for m in CLAUSE.finditer(text):
        depth, i = 0, m.end()
        while True:
            depth += {"{": 1, "}": -1}.get(text[i], 0)
            i += 1
            if depth == 0:
                break
        spans.append((m.end(), i))
    for a, b in sorted(spans):
        if a < at:
            continue
        out += [text[at:a], in_antt(text[a:b], turned)]
        at = b
    return "".join(out) + text[at:]


def main(root):
    turned, kept = table(root)
    turned.update(APART)
    for path in texts(root, ".antt", ".rt"):
        text = read(path)
        new = in_rust(text, turned) if path.endswith(".rt") else in_antt(text, turned, "/Proof" in path)
        if new != text:
            with open(path, "w", encoding="utf-8") as f:
                f.write(new)
    for a, b in sorted(turned.items()):
        print(a, b)
    for a in kept:
        print("kept, as a library has it:", a)


if __name__ == "__main__":
    main(sys.argv[1] if len(sys.argv) > 1 else ".")
