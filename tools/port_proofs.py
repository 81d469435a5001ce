#!/usr/bin/env python3
"""port_proofs.py NAMES CRATE..: turns each Proof.antt over generated needs into Invariants.antt and Answers.antt.

NAMES is a folder with NAMES/CRATE/names.json, as `rattle check --generated NAMES/CRATE --old-names` writes it. An answer keeps its term: the
way to each fact (`c.before.before.kind-at`) becomes the fact's name of today (`c.kind_at`), a tuple for several clauses a record by their
names. Answers that are a bare search are left out, since the check tries that itself. What has no counterpart is printed.
"""
import json
import os
import re
import sys

NAME = r'[^\s(){}.;,@"«»\[\]|]+'
USE = re.compile(r"^use ", re.M)
plain = lambda s: s.replace("_", "-")
ENTRY = {"args": "args", "requires": "requires", "pre": "requires", "ranges": "ranges", "fits": "ranges", "type-inv": "type_inv", "good": "well_formed", "well-formed": "well_formed", "told": "told"}


def blocks(text):
    """The declarations: header lines, then each block of lines that begins at the left edge after an empty line or a signature."""
    lines, out, now = text.split("\n"), [], []
    for l in lines:
        starts = l and not l[0].isspace()
        if starts and now and not now[-1].strip():
            out.append(now)
            now = []
        now.append(l)
    if now:
        out.append(now)
    return ["\n".join(b).rstrip() for b in out if "\n".join(b).strip()]


def parts_of(term):
    """The parts of a tuple term, or None where the term is no tuple."""
    t = term.strip()
    if not (t.startswith("(") and t.endswith(")")):
        return None
    depth, parts, at = 0, [], 1
    for i, ch in enumerate(t):
        if ch in "([{":
            depth += 1
        elif ch in ")]}":
            depth -= 1
            if depth == 0 and i < len(t) - 1:
                return None
        elif ch == "," and depth == 1:
            parts.append(t[at:i].strip())
            at = i + 1
    last = t[at:-1].strip()
    if last:
        parts.append(last)
    return parts if len(parts) > 1 else None


def lets_off(body):
    """The lets in front of a term, and the term."""
    lets, rest = [], body
    while True:
        m = re.match(rf"\s*let ({NAME})(?: : [^=]+?)? = ", rest)
        if not m:
            return lets, rest
        depth, i = 0, m.end()
        nested = 0
        while i < len(rest):
            if rest[i] in "([{":
                depth += 1
            elif rest[i] in ")]}":
                depth -= 1
            w = re.match(r"(?<![\w'-])(let|in)(?![\w'-])", rest[i:]) if (i == 0 or rest[i - 1].isspace() or rest[i - 1] in "(") else None
            if w and depth == 0:
                if w[1] == "let":
                    nested += 1
                elif nested:
                    nested -= 1
                else:
                    break
            i += 1
        if i >= len(rest):
            return lets, rest
        lets.append(rest[: i + 2].strip())
        rest = rest[i + 2 :]


class Function:
    def __init__(self, info, said, where, multi):
        self.info, self.said, self.where, self.cycle = info, said, where, multi
        self.needs = {}
        for old, new in info["needs"]:
            for o in {old, re.sub(r"^(overflow|nonzero)_", "", new) if False else old}:
                self.needs[plain(o)] = new
        self.steps, self.fields, self.clauses = {}, {}, {}
        for i, (place, parent, (old, new), fn, fields) in enumerate(info["places"]):
            self.steps.setdefault(plain(old), [])
            if new not in self.steps[plain(old)]:
                self.steps[plain(old)].append(new)
            if fields:
                self.fields.setdefault((plain(old), place.split("-")[0][:4]), {}).update(dict(fields))
                self.fields.setdefault(new, {}).update({})
            cl = info["clauses"][i] if i < len(info["clauses"]) else None
            if cl and cl.get("fields"):
                self.clauses[plain(old)] = cl["fields"]
        # For each goal the places on its way, the nearest first.
        self.ways, by_place = {}, {p[0]: (i, p) for i, p in enumerate(info["places"])}
        for (old, new), (at, _) in zip(info["needs"], info["asked_at"]):
            way = []
            while at in by_place:
                way.append(by_place[at])
                at = by_place[at][1][1]
            self.ways[new] = way
        self.way, self.used = [], set()
        # The parameters of the function that each step calls.
        self.params = {}
        for place, parent, (old, new), fn, fields in info["places"]:
            if fn and fn in info["params"]:
                self.params[new] = info["params"][fn]
        self.raw = {}
        for place, parent, (old, new), fn, fields in info["places"]:
            for a, b in fields or []:
                self.raw.setdefault(plain(old), {})[a] = b

    def need(self, name):
        n = plain(name)
        for cut in ("", "overflow-", "nonzero-"):
            if n.startswith(cut) and n[len(cut) :] in self.needs:
                return self.needs[n[len(cut) :]]
        m = re.match(r"(?:overflow|nonzero|slice|offset)?-?(.*)", n)
        return self.needs.get(m[1])

    def step(self, old):
        p = plain(old)
        if p in ENTRY:
            return ENTRY[p]
        new = self.steps.get(p)
        if not new:
            self.said.append(f"{self.where}: no step {old}")
            return old
        if len(new) > 1:
            for _, place in self.way:
                if plain(place[2][0]) == p:
                    return place[2][1]
            self.said.append(f"{self.where}: step {old} is one of {new}")
        return new[0]

    def arm(self, old, rest):
        """A fact of an arm: where it stands now, or None."""
        for i, place in self.way:
            arm = self.info["arms"][i]
            if plain(place[2][0]) != plain(old) or not arm:
                continue
            for now, was, fields in arm[2]:
                front = "".join("." + f for f in fields)
                if plain(was) == plain(old) and (rest + ".").startswith(front + "."):
                    return f"c.{arm[0]}.{now}{rest[len(front):]}"
        return None

    def path(self, text):
        """Turns each path from c, and the fields right behind its step."""

        def turn(m):
            old = m[1]
            new = self.step(old)
            rest = m[2] or ""
            arm = self.arm(old, rest)
            if arm:
                return arm
            raw = self.raw.get(plain(old))
            first = re.match(rf"\.({NAME})", rest)
            if raw and first and first[1] in raw:
                rest = "." + raw[first[1]] + rest[first.end() :]
            cl = self.clauses.get(plain(old))
            if cl and len(cl) > 2:
                # Three clauses and more were pairs in pairs.
                k = re.match(r"^\.ensures((?:\.1){0,%d})(\.0)?(?=\.|$)" % (len(cl) - 1), rest)
                if k and (k[2] and len(k[1]) // 2 < len(cl) - 1 or len(k[1]) // 2 == len(cl) - 1):
                    at = len(k[1]) // 2
                    end = k.end() if at < len(cl) - 1 else k.end(1)
                    rest = ".ensures." + cl[at] + rest[end:]
            elif cl and len(cl) > 1:
                rest = re.sub(r"^\.ensures\.(\d+)", lambda k: ".ensures." + cl[int(k[1])] if int(k[1]) < len(cl) else k[0], rest)
            if self.cycle and plain(old) in ("requires", "pre"):
                if rest.startswith(".0"):
                    self.said.append(f"{self.where}: the measure's own fact: {old}{rest}")
                rest = re.sub(r"^\.1(?=\.|$)", "", rest)
            if plain(old) in ("requires", "pre") and self.info.get("pre") and self.info["pre"].get("fields"):
                fs = self.info["pre"]["fields"]
                rest = re.sub(r"^\.(\d+)", lambda k: "." + fs[int(k[1])], rest)
            # What a parameter points to at the call's end, which went by its place, goes by its name.
            at = re.match(r"^\.(new|kept|auto)((?:\.1)*)\.0(?![\w])", rest)
            if at and new in self.params and len(at[2]) // 2 < len(self.params[new]):
                rest = f".{at[1]}." + self.params[new][len(at[2]) // 2] + rest[at.end() :]
            return "c." + new + rest

        return re.sub(rf"(?<![\w'.-])c(?:\.before)*\.({NAME})((?:\.{NAME})*)", turn, text)

    def inline(self, body):
        """Puts each `let x = c.before.. in` into the term."""
        m = re.compile(rf"[ \t]*let ({NAME}) = (c(?:\.before)*\.{NAME}(?:\.{NAME})*)\s+in(?=\s)\n?")
        found = {}
        while True:
            k = m.search(body)
            if not k:
                break
            if re.search(rf"λ [^.]*(?<![\w'-]){re.escape(k[1])}(?![\w'-])[^.]*\.", body) or re.search(rf"\blet {re.escape(k[1])}[ ]", body[k.end() :]):
                body = body[: k.start()] + body[k.start() : k.end()].replace("let ", "let\0 ", 1) + body[k.end() :]
                continue
            found[k[1]] = k[2]
            # A name that the file imports means the step only where a field follows.
            ends = r"(?=\.)" if k[1] in self.imported else r"(?![\w'-])"
            tail = re.sub(rf"(?<![\w'.-])(?<![\w]\.){re.escape(k[1])}{ends}(?! = )", lambda _: k[2], body[k.end() :])
            body = body[: k.start()].rstrip(" ") + ("" if body[: k.start()].endswith(" ") or not body[: k.start()] else "") + tail
        return body.replace("let\0", "let")


def invariant(block, info, said, where, stem):
    """An invariant or a measure over positions becomes one over the record l."""
    m = re.match(rf"abbrev (?:pub )?((?:invariant|decreases)-{NAME}) : .*?\n\1 (.*?) =(.*)$", block, re.S)
    if not m:
        said.append(f"{where}: an invariant of another form: {block[:80]}")
        return None
    name, args, body = m[1], m[2].split(), m[3]
    kind, old = name.split("-", 1)
    for i, ((was, new), names) in enumerate(info["loops"]):
        if plain(was) == plain(old):
            changed = info["changed"][i]
            break
    else:
        said.append(f"{where}: no loop {old}")
        return None
    values = [("l.initial." if ch else "l.") + n for n, ch in zip(names, changed)] + ["l." + n for n, ch in zip(names, changed) if ch]
    if len(values) != len(args):
        said.append(f"{where}: {name} has {len(args)} arguments, {len(values)} are told")
        return None
    table = dict(zip(args, values))
    bound = set(re.findall(rf"(?:λ |let |\()({NAME}) ?[:.=]", body)) & set(args)
    if bound:
        said.append(f"{where}: {name} binds {bound} anew: look")
    body = re.sub(rf"(?<![\w'.₀-])({'|'.join(sorted(map(re.escape, table), key=len, reverse=True))})(?![\w'₀-])", lambda k: table[k[1]], body)
    full = f"{kind}-{stem}{new}"
    return f"abbrev pub {full} : goal.{full}\n{full} l ={body}"


def turn(path, crate, names, said):
    where = os.path.relpath(path, os.path.join(crate, "proofs"))
    folder = os.path.dirname(path)
    module = os.path.relpath(folder, os.path.join(crate, "proofs")).replace("/", ".")
    name = os.path.basename(crate)
    info = names.get(f"Rattle-{name}-proofs.{module}.Lts")
    with open(path, encoding="utf-8") as f:
        text = f.read()
    if "tie.close" not in text and "tie.spec" not in text or not info:
        said.append(f"{where}: a proof by hand, or with no names")
        return False
    head = re.match(r"(?:(?:--[^\n]*|use [^\n]*|pub use [^\n]*|mod [^\n]*|)\n)*", text)[0]
    uses = [l for l in head.split("\n") if l.startswith(("use ", "pub use "))]
    comment = [l for l in head.split("\n") if l.startswith("--")]
    made = re.compile(r"\.(Statement|Tie|Lts|Reads|Code|Met)(\.\{| as |$)|borrow\.Author\.Rules\.\{rules\}$")
    kept = [l for l in uses if not re.search(rf"proofs\.{re.escape(module)}\.", l)]
    function = Function(info, said, where, None)
    function.imported = {n.split(" as ")[-1].strip() for l in uses for n in (re.findall(r"\{(.*)\}", l) or [""])[0].split(",")}
    given, answers, helpers = [], [], []
    for b in blocks(text[len(head) :]):
        if re.match(r"abbrev (?:pub )?(invariant|decreases)-", b):
            new = invariant(b, info, said, where, info.get("stem") or "")
            if new:
                given.append(new)
            continue
        m = re.match(rf"((?:--[^\n]*\n)*)(?:pub )?({NAME}) : (?:tie|lts)\.Need-({NAME})[^\n]*\n((?:unfolding [^\n]*\n)?)\2 ([^=]*?) ?=(.*)$", b, re.S)
        if m:
            goal = function.need(m[3])
            if not goal:
                if m[6].strip() not in ("search rules", "search needs"):
                    said.append(f"{where}: no goal {m[3]}: {' '.join(m[6].split())[:200]}")
                continue
            if goal in info.get("settled", []) or m[6].strip() in ("search rules", "tt"):
                continue
            function.way = function.ways.get(goal, [])
            body = function.path(function.inline(m[6]))
            asked = info.get("asked", {}).get(m[3]) or info.get("asked", {}).get(next((o for o, n in info["needs"] if n == goal), None))
            if asked and len(asked) > 1:
                lets, term = lets_off(body)
                parts = parts_of(term)
                if parts and len(parts) == len(asked):
                    body = "".join(f"\n    {x}" for x in lets) + "\n    record { " + "; ".join(f"{a} = {p}" for a, p in zip(asked, parts)) + " }"
                else:
                    said.append(f"{where}: {goal} wants {asked}")
            answers.append(f"{m[1]}pub {goal} : goal.{goal}\n{m[4]}{goal} c ={body}")
            continue
        if "tie.close" in b or "tie.spec" in b:
            continue
        helpers.append(b)
    def used(l, body):
        g = re.search(r"\{(.*)\}", l)
        if not g:
            alias = re.search(r" as (\S+)$", l)
            alias = alias[1] if alias else l.split(".")[-1].strip()
            return l if re.search(rf"(?<![\w'-]){re.escape(alias)}(?![\w'-])", body) else None
        return l
    shared = [h for h in helpers if any(re.search(rf"(?<![\w'.-]){re.escape(n)}(?![\w'-])", g) for g in given for n in re.findall(rf"(?m)^(?:abbrev |unfoldable |pub |record |data )*({NAME})(?: [({{][^\n]*)? :", h))]
    rest = [h for h in helpers if h not in shared]
    lib = f"Rattle.{name}.proofs.{module}"
    if given:
        body = "\n\n".join([*shared, *given])
        body = body if not shared else re.sub(r"(?m)^(abbrev |unfoldable )?(?!pub )", lambda m: m[0], body)
        us = [l for l in (used(l, body) for l in kept) if l]
        with open(os.path.join(folder, "Invariants.antt"), "w", encoding="utf-8") as f:
            f.write("\n".join([*comment, *us, f"use {lib}.Given as goal", "", body, ""]))
    if answers or rest:
        body = "\n\n".join([*rest, *answers])
        us = [l for l in (used(l, body) for l in kept) if l]
        if shared:
            ns = [n for h in shared for n in re.findall(rf"(?m)^(?:abbrev |unfoldable |pub |record |data )*({NAME})(?: [({{][^\n]*)? :", h)]
            us.append(f"use {lib}.Invariants.{{{', '.join(ns)}}}")
        with open(os.path.join(folder, "Answers.antt"), "w", encoding="utf-8") as f:
            f.write("\n".join([*([] if given else comment), *us, f"use {lib}.Goals as goal", "", body, ""]))
    os.remove(path)
    return True


def parameters(crate):
    """The parameters of each function in the order of its source, by its name."""
    found = {}
    for at, _, files in os.walk(os.path.join(crate, "src")):
        for f in files:
            with open(os.path.join(at, f), encoding="utf-8") as it:
                for m in re.finditer(r"\bfn (\w+)(?:<[^>]*>)?\(([^{]*?)\)(?: ->|\n|\s*\{)", it.read()):
                    found[m[1]] = re.findall(r"(?:^|[,(\s])(?:mut )?(\w+)\s*:(?!:)", m[2])
    return found


def turn_cycle(folder, crate, names, said):
    """A cycle: its one proof, and the module of each member, become one file of invariants and one of answers."""
    where = os.path.relpath(folder, os.path.join(crate, "proofs"))
    short = os.path.basename(folder)
    module = where.replace("/", ".")
    name, lib = os.path.basename(crate), f"Rattle.{os.path.basename(crate)}.proofs.{module}"
    params = parameters(crate)
    paths = [os.path.join(folder, "Proof.antt")]
    inner = os.path.join(folder, "Proof")
    if os.path.isdir(inner):
        paths += [os.path.join(inner, f) for f in sorted(os.listdir(inner))]
    uses, given, answers, helpers = [], [], [], []
    for path in paths:
        with open(path, encoding="utf-8") as f:
            text = f.read()
        head = re.match(r"(?:(?:--[^\n]*|use [^\n]*|pub use [^\n]*|mod [^\n]*|)\n)*", text)[0]
        own = [l for l in head.split("\n") if l.startswith("use ")]
        aliases = {m[2]: m[1] for l in own for m in [re.search(r"\.Lts-(\S+) as (\S+)$", l)] if m}
        imported = {n.split(" as ")[-1].strip() for l in own for n in (re.findall(r"\{(.*)\}", l) or [""])[0].split(",")}
        uses += [l for l in own if not re.search(r"(?:\.(?:Reads|Kinds|Symbol|Met|Code|Statement|Tie)(?:\.\{[^}]*\})?(?: as \S+)?|\.Lts\S*(?: as \S+)?|Proof\.Base\.\{[^}]*\}|PlainCycle\.\{[^}]*\}|Fn\.Kinds\.\{[^}]*\})$", l)]
        body = text[len(head) :]
        body = re.sub(r"(?ms)^module _ \(t : ℕ\) where\n((?:(?:  [^\n]*)?\n)*(?:  [^\n]*)?)", lambda m: re.sub(r"(?m)^  ", "", m[1]), body)
        made = {}
        for b in blocks(body):
            m = re.match(rf"((?:--[^\n]*\n)*)(?:abbrev )?(?:pub )?({NAME}) :\s+({NAME})\.({NAME})", b)
            kind = re.match(rf"(?:--[^\n]*\n)*(?:abbrev )?(?:pub )?({NAME}) : (Measures|ℕ → In|ℕ → ({NAME})\.Claims)", b)
            if kind and kind[2] == "Measures":
                f = re.sub(r"^μ[-_]", "", kind[1]).replace("-", "_")
                e = re.search(rf"(?m)^{re.escape(kind[1])} κs a =\s*(.*)$", b, re.S)[1]
                e = re.sub(r"(?<![\w.])a((?:\.1)*)\.0(?![\w])", lambda k: "l." + params[f][len(k[1]) // 2], e)
                given.append(f"abbrev pub decreases-{f} : goal.decreases-{f}\ndecreases-{f} l = {e.strip()}")
                continue
            if kind or "-spec :" in b.split("\n")[0] or "_spec :" in b.split("\n")[0]:
                continue
            if m and m[3] in aliases:
                f = aliases[m[3]]
                info = names.get(f"Rattle-{name}-proofs.{module}.Lts-{f}")
                if not info:
                    said.append(f"{where}: nothing is told of {f}")
                    continue
                stem = info.get("stem") or ""
                if m[4].startswith(("invariant", "decreases", "InvT", "MeasureT")):
                    kind = "decreases" if m[4].startswith(("decreases", "MeasureT")) else "invariant"
                    loop = m[4].split("-", 1)[1]
                    told = f"{kind}-{loop}"
                    again = re.sub(rf"(?m)^(?:abbrev )?(?:pub )?{re.escape(m[2])} : [^\n]*\n{re.escape(m[2])} ", f"abbrev pub {told} : goal.x\n{told} ", b)
                    new = invariant(again[again.index("abbrev") :], info, said, f"{where}/{f}", stem)
                    if new:
                        given.append(new)
                    continue
                g = re.match(rf"((?:--[^\n]*\n)*)(?:pub )?({NAME}) :\s+{NAME}\.Need-({NAME})[^\n]*\n((?:unfolding [^\n]*\n)?)\2 ([^=]*?) ?=(.*)$", b, re.S)
                if g:
                    function = made.setdefault(f, Function(info, said, f"{where}/{f}", True))
                    function.imported = imported
                    goal = function.need(g[3])
                    if not goal:
                        if g[6].strip() != "search rules":
                            said.append(f"{where}/{f}: no goal {g[3]}: {' '.join(g[6].split())[:200]}")
                        continue
                    if goal in info.get("settled", []) or g[6].strip() in ("search rules", "tt"):
                        continue
                    function.way = function.ways.get(goal, [])
                    term = function.path(function.inline(g[6]))
                    asked = info.get("asked", {}).get(next((o for o, n in info["needs"] if n == goal), None))
                    if asked and len(asked) > 1:
                        lets, rest = lets_off(term)
                        parts = parts_of(rest)
                        while parts and len(parts) < len(asked) and parts_of(parts[-1]):
                            parts = parts[:-1] + parts_of(parts[-1])
                        if parts and len(parts) == len(asked):
                            term = "".join(f"\n    {x}" for x in lets) + "\n    record {\n" + "".join(f"      {a} = {p};\n" for a, p in zip(asked, parts)) + "    }"
                        else:
                            said.append(f"{where}/{f}: {goal} wants {asked}")
                    answers.append(f"{g[1]}pub {stem}{goal} : goal.{stem}{goal}\n{g[4]}{stem}{goal} t c ={term}")
                    continue
            helpers.append(b)
    tree = {}
    plainly = []
    for l in dict.fromkeys(uses):
        m = re.match(r"use (\S+)\.\{(.*)\}$", l)
        if m:
            tree.setdefault(m[1], {}).update({n.strip(): 0 for n in m[2].split(",")})
        else:
            plainly.append(l)

    def heads(body):
        out = []
        for l in plainly:
            alias = re.search(r" as (\S+)$", l)
            alias = alias[1] if alias else l.split(".")[-1]
            if re.search(rf"(?<![\w'-]){re.escape(alias)}(?![\w'-])", body):
                out.append(l)
        taken = {}
        for where_, ns in tree.items():
            keep = []
            for n in ns:
                local = n.split(" as ")[-1]
                core = [x for x in local.split("◌") if x]
                if all(re.search(re.escape(x) if "◌" in local else rf"(?<![\w'-]){re.escape(x)}(?![\w'-])", body) for x in core):
                    if local in taken and taken[local] != where_:
                        said.append(f"{where}: {local} comes from {taken[local]} and {where_}")
                    taken[local] = where_
                    keep.append(n)
            if keep:
                out.append(f"use {where_}.{{{', '.join(keep)}}}")
        return out

    body = "\n\n".join(given)
    with open(os.path.join(folder, "Invariants.antt"), "w", encoding="utf-8") as f:
        f.write("\n".join([*heads(body), f"use {lib}.Given as goal", "", body, ""]))
    body = "\n\n".join([*helpers, *answers])
    with open(os.path.join(folder, "Answers.antt"), "w", encoding="utf-8") as f:
        f.write("\n".join([*heads(body), f"use {lib}.Goals as goal", "", body, ""]))
    for p in paths:
        os.remove(p)
    if os.path.isdir(inner):
        os.rmdir(inner)


def main(names, crates):
    for crate in crates:
        with open(os.path.join(names, os.path.basename(crate), "names.json"), encoding="utf-8") as f:
            info = json.load(f)
        said, n = [], 0
        for at, _, files in sorted(os.walk(os.path.join(crate, "proofs"))):
            if "Proof.antt" in files and os.path.basename(at).startswith("+"):
                turn_cycle(at, crate, info, said)
                n += 1
            elif "Proof.antt" in files:
                n += turn(os.path.join(at, "Proof.antt"), crate, info, said)
        print(f"{crate}: {n} proofs turned")
        for s in said:
            print("  look:", s)


if __name__ == "__main__":
    main(sys.argv[1], [c.rstrip("/") for c in sys.argv[2:]])
