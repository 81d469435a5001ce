#!/usr/bin/env python3
"""Runs the benchmark's programs, prints what they measured, and keeps it.

    report.py OUT LIB [--write]     OUT has the programs and lists (bench.sh makes them), LIB the library

All that is printed is also in OUT/figures.txt. --write puts the figures into docs/SPEED.md, between its marks, and draws
docs/pictures/speed.svg.
"""
import math
import os
import platform
import re
import shutil
import statistics
import subprocess
import sys

import counts

ROOT = os.path.join(os.path.dirname(os.path.abspath(__file__)), "..")
SETS = ("one", "typical", "1000", "members")
NAMES = {"one": "types of one token", "typical": "typical types", "1000": "lists of about 1,000 tokens", "members": "types with object types"}
UNITS = {"read": "check, read and key, ns a token", "take": "take back, ns a byte of key"}
PARTS = {"check": "check", "tree": "check and read", "key": "key out", "take": "take back", "read": "whole read: check, read and key"}
ASKED = {"check": 1.15, "tree": 1.3, "key": 1.5, "take": 1.25, "read": 1.4}
ASKED_OF_ONE = 2.0
TURNS = 5
FEW = str(min(9, int(os.environ.get("ROUNDS", 9))))                # rounds in each turn of native code and Node


def ran(*command, **env):
    done = subprocess.run(command, env=dict(os.environ, **env), capture_output=True, text=True)
    if done.returncode:
        sys.exit("%s: %s" % (" ".join(command), done.stderr or done.stdout))
    return done.stdout


def fields(line):
    """The words of a line after its first two, each name with its number."""
    words, pairs = line.split(), {}
    i = 2
    while i + 1 < len(words):
        name = "arena ratio" if words[i] == "ratio" and "arena" in pairs else words[i]
        pairs[name] = float(words[i + 1])
        i += 2
    return words[1], pairs


def table(head, rows):
    rows = [head, ["---"] * len(head)] + rows
    return "\n".join("| " + " | ".join(r) + " |" for r in rows)


def whole(n): return "{:,.0f}".format(n)
def one(n): return "%.1f" % n
def two(n): return "%.2f" % n


def machine():
    first = lambda *c: ran(*c).splitlines()[0]
    return "%s, %d cores, shared with other work; %s; Node %s" % (
        platform.machine().replace("_", "-"), os.cpu_count(), re.sub(r" \(.*", "", first("rustc", "--version")), first("node", "--version"))


class Bench:
    def __init__(b, out, lib):
        b.out, b.lib, b.kept, b.blocks = out, lib, [], {}
        b.lists = [os.path.join(out, "lists", s) for s in SETS]

    def measured(b, job, *files, **env):
        said = ran(os.path.join(b.out, "measure"), job, *files, **env)
        b.kept.append(said)
        return said.splitlines()

    def say(b, name, text):
        b.blocks[name] = text
        print(text + "\n", flush=True)

    def agreement(b):
        said = []
        for line in b.measured("agree", os.path.join(ROOT, "crates", "rows", "data", "vectors")):
            w = line.split()
            if w[0] != "agree":
                sys.exit("the baseline answers otherwise: " + line)
            said.append((w[1], int(w[2]), {w[i]: int(w[i + 1]) for i in range(3, len(w), 2)}))
        b.say("agreement", "\n".join(
            "- Of %s stored %s the library answers %s as stored, the baseline %s: on %s the same %s, on the others the same refusal at the same place. "
            "For %s of them the stored answer is refusal %s, which mostly tells of too little lent; there the two were compared with room enough."
            % (whole(n), what, whole(f["ours"]), whole(f["baseline"]), whole(f["read"]), "key" if what == "texts" else "key written again", whole(f["room"]),
               "8, 9 or 11" if what == "texts" else "8 or 11")
            for what, n, f in said))

    def by_part(b):
        rows, b.main, sizes = [], {}, {}
        for line in b.measured("parts", *b.lists):
            part, (name, f) = line.split()[0], fields(line)
            b.main[part, name] = f
            sizes[name] = "%s %s (%s tokens, %s bytes of key)" % (whole(f["lists"]), NAMES[name], whole(f["tokens"]), whole(f["bytes"]))
            rows.append([PARTS[part], NAMES[name], one(f["ours"]), one(f["rust"]), two(f["ratio"]), two(ASKED_OF_ONE if name == "one" else ASKED[part]),
                         one(f["arena"]), two(f["arena ratio"])])
        b.say("parts", table(["part", "on", "library", "Rust", "library to Rust", "asked at most", "Rust, arena", "library to that"], rows))
        b.say("sizes", "- Key out and take back are in ns a byte of key, the others in ns a token, the Eof not counted. Measured on " + "; ".join(sizes.values()) + ".")

    def instructions(b):
        """Instructions by part and by function; not on Arm, where valgrind does not see where the counted function ends."""
        if not shutil.which("valgrind") or platform.machine() != "x86_64":
            return
        c = counts.all_counts(b.out)
        total = lambda *key: sum(c[key].values())
        rows = [[PARTS[p], NAMES[s], one(total(p, 0, s)), one(total(p, 1, s)), two(total(p, 0, s) / total(p, 1, s))] for p in PARTS for s in SETS]
        b.say("instructions", table(["part", "on", "library", "Rust", "library to Rust"], rows))
        said = []
        for s in ("typical", "one"):
            all_of, check, tree, key = (total(p, 0, s) for p in ("read", "check", "tree", "key"))
            key *= b.main["read", s]["bytes"] / b.main["read", s]["tokens"]
            said.append("%s: %s instructions a token, of them the check %s, reading %s, key out %s, the rest of the call %s" % (
                NAMES[s], whole(all_of), whole(check), whole(tree - check), whole(key), whole(all_of - tree - key)))
        b.say("going", ". ".join(t[0].upper() + t[1:] for t in said) + ".")
        split = {}
        for s in ("typical", "one"):
            by = dict(c["read", 0, s])
            check = c["check", 0, s]["part_check"]
            by["typekey_read: the check"], by["typekey_read: tables, clearing and the rest"] = check, by.pop("typekey_read") - check
            split[s] = by
        ten = sorted(split["typical"], key=lambda n: -split["typical"][n])[:10]
        rows = [["`%s`" % n if "::" in n else n] + [x for s in ("typical", "one") for x in (one(split[s].get(n, 0)), "%.0f %%" % (100 * split[s].get(n, 0) / total("read", 0, s)))] for n in ten]
        b.say("functions", table(["function", "typical types", "share", "types of one token", "share"], rows))

    def growth(b):
        sizes = sorted(int(n[5:]) for n in os.listdir(os.path.join(b.out, "lists")) if n.startswith("grow-"))
        files = [os.path.join(b.out, "lists", "grow-%d" % n) for n in sizes]
        b.grow = [(n, f["ours"], f["rust"], f["arena"]) for n, (_, f) in zip(sizes, map(fields, b.measured("read", *files)))]
        rows = [[whole(n), one(x), one(y), one(z)] for n, x, y, z in b.grow]
        b.say("growth", table(["tokens of a type", "library, ns a token", "Rust", "Rust, arena"], rows))
        long = [(math.log(g[0]), [math.log(g[0] * t) for t in g[1:]]) for g in b.grow if g[0] >= 16]
        slopes = [statistics.linear_regression([x for x, _ in long], [y[i] for _, y in long]).slope for i in range(3)]
        b.slope = slopes[0]
        b.say("slopes", "From 16 tokens on, the time of a whole call grows with the tokens to the power %.2f (Rust %.2f, with an arena %.2f); 1 would be a straight line." % tuple(slopes))

    def lending(b):
        rows = []
        ways = {"exact": "just what it uses", "header": "what the header says", "full": "what any call could use"}
        b.lent = {}
        for line in b.measured("lend", os.path.join(b.out, "lists", "typical")):
            w = line.split()
            f = {w[i]: float(w[i + 1]) for i in range(4, len(w), 2)}
            b.lent[w[1], w[3]] = f
            rows.append([{"read": "read", "take": "take back"}[w[1]], ways[w[3]], whole(f["bytes"]), whole(f["call"]), whole(f["clear"])])
        b.say("lending", table(["call", "lent", "bytes, on average", "ns a call", "ns to write so many zeros"], rows))

    def stack(b):
        folder = os.path.join(b.out, "lists")
        said = ran(os.path.join(b.out, "stack"), os.path.join(folder, "stack"), os.path.join(folder, "stack.keys"))
        b.kept.append(said)
        names = open(os.path.join(folder, "stack.names")).read().splitlines()
        lines = [(l.split()[1], int(l.split()[2]), n) for l, n in zip(said.splitlines(), names)]
        rows, b.deepest = [], {}
        for job in ("read", "take"):
            size, name = max((size, name) for j, size, name in lines if j == job)
            b.deepest[job] = size
            name = re.sub("first, (.*)", r"first: `\1..`", name).replace("|", "\\|")
            rows.append([{"read": "read", "take": "take back"}[job], str(sum(j == job for j, _, _ in lines)), whole(size), name])
        b.say("stack", table(["call", "inputs", "most bytes of stack", "on"], rows))

    def in_node(b):
        """The library and Node in turn; each time and ratio is the median of the turns."""
        native, node, faults = [], [], 0
        for _ in range(TURNS):
            got = {}
            for job in ("read", "take"):
                for line in b.measured(job, *b.lists, ROUNDS=FEW):
                    name, f = fields(line)
                    got[job, name] = f["ours"]
            native.append(got)
            said = ran("node", os.path.join(ROOT, "bench", "node.mjs"), os.path.join(b.lib, "typekey.wasm"), *b.lists, ROUNDS=FEW)
            b.kept.append(said)
            node.append({(w[1], w[2]): float(w[3]) for w in map(str.split, said.splitlines())})
            faults = sum(int(w[5]) for w in map(str.split, said.splitlines()) if len(w) > 4)
        middle = lambda turns, key: statistics.median(t[key] for t in turns)
        ratio = lambda over, key, under: statistics.median(o[over, key] / u[under, key] for o, u in zip(node, native))
        rows, b.node = [], {}
        for job, unit in UNITS.items():
            for s in SETS:
                b.node[job, s] = ratio(job, s, job)
                row = [unit, NAMES[s], one(middle(native, (job, s))), one(middle(node, (job, s))), two(b.node[job, s])]
                if ("parse", "one") in node[0]:
                    row += [one(middle(node, ("parse", s))), one(middle(node, ("scan", s))), one(ratio("parse", s, "read"))] if job == "read" else ["", "", ""]
                    b.node["parse", s] = ratio("parse", s, "read")
                rows.append(row)
        head = ["", "on", "native", "WebAssembly", "to native"]
        if ("parse", "one") in node[0]:
            head += ["TypeScript's parser", "its scanner alone", "parser to native"]
        b.say("node", table(head, rows))
        if ("parse", "one") in node[0]:
            version = ran("node", "-p", "require('typescript').version").strip()
            b.say("typescript", "TypeScript %s parses these texts with %d faults in all." % (version, faults))

    def meaning(b):
        typical, taken = b.main["read", "typical"], b.main["take", "typical"]
        over = ["%s on %s (%s)" % (PARTS[p], NAMES[s], two(f["ratio"])) for (p, s), f in b.main.items() if round(f["ratio"], 2) > (ASKED_OF_ONE if s == "one" else ASKED[p])]
        b.say("meaning", "A typical type takes %s ns from its tokens to its key, %s times what the same job takes in ordinary Rust, and %s times what it takes with an arena in place of the "
              "allocator; a key comes back in %s and %s times their time. Of the ratios asked for, %s. Time grows in proportion to the tokens (to the power %.2f); short types cost more a token, since every call "
              "has a part that does not depend on its tokens. What counts for a caller is to lend by need: with all that any call could use, a read of the same types takes %s times as long, and nearly all of it is clearing."
              % (whole(typical["ours"] * typical["tokens"] / typical["lists"]), two(typical["ratio"]), two(typical["arena ratio"]), two(taken["ratio"]), two(taken["arena ratio"]),
                 "these are missed: " + ", ".join(over) if over else "each is kept", b.slope, whole(b.lent["read", "full"]["call"] / b.lent["read", "header"]["call"])))


# ---- the picture ----
STYLE = """
  text { font: 13px sans-serif; fill: #333 } .small { font-size: 12px }
  .axis { stroke: #555; stroke-width: 1 } .grid { stroke: #ddd; stroke-width: 1 }
  .ours { stroke: #0b62c4; fill: #0b62c4 } .rust { stroke: #b4480b; fill: #b4480b } .arena { stroke: #2b7a35; fill: #2b7a35 }
  .line { fill: none; stroke-width: 2.2 } .rust.line { stroke-dasharray: 7 4 } .arena.line { stroke-dasharray: 2 3 }
  .name { stroke: none }
  @media (prefers-color-scheme: dark) {
    text { fill: #ddd } .axis { stroke: #aaa } .grid { stroke: #3a3f45 }
    .ours { stroke: #6cb2ff; fill: #6cb2ff } .rust { stroke: #ffa25c; fill: #ffa25c } .arena { stroke: #7fd08a; fill: #7fd08a }
    .line { fill: none } .name { stroke: none }
  }
"""


def picture(grow, path):
    """ns a token against tokens, both axes by powers."""
    width, height, left, right, up, down = 760, 440, 70, 20, 46, 56
    ticks = [k * t for t in (10, 100, 1000) for k in (1, 1.5, 2, 3, 5, 7)]
    low, high = max(t for t in ticks if t < min(min(g[1:]) for g in grow)), max(max(g[1:]) for g in grow) * 1.15
    across = lambda n: left + (width - left - right) * math.log(n) / math.log(grow[-1][0])
    along = lambda t: height - down - (height - up - down) * math.log(t / low) / math.log(high / low)
    out = ['<svg xmlns="http://www.w3.org/2000/svg" viewBox="0 0 %d %d" width="%d" height="%d" role="img">' % (width, height, width, height),
           "<title>Time a token against the tokens of a type</title>", "<style>%s</style>" % STYLE]
    for t in ticks:
        if low <= t < high:
            out.append('<line class="grid" x1="%d" x2="%d" y1="%.1f" y2="%.1f"/><text x="%d" y="%.1f" text-anchor="end">%s</text>' % (left, width - right, along(t), along(t), left - 8, along(t) + 4, whole(t)))
    for n, *_ in grow[::2]:
        out.append('<line class="grid" x1="%.1f" x2="%.1f" y1="%d" y2="%d"/><text x="%.1f" y="%d" text-anchor="middle">%s</text>' % (across(n), across(n), up, height - down, across(n), height - down + 18, whole(n)))
    out.append('<line class="axis" x1="%d" x2="%d" y1="%d" y2="%d"/><line class="axis" x1="%d" x2="%d" y1="%d" y2="%d"/>' % (left, width - right, height - down, height - down, left, left, up, height - down))
    out.append('<text x="%d" y="%d" text-anchor="middle">tokens of a type, the Eof not counted</text>' % ((left + width - right) / 2, height - 12))
    out.append('<text transform="translate(18 %d) rotate(-90)" text-anchor="middle">ns a token: check, read and key</text>' % ((up + height - down) / 2))
    at = left + 6
    for i, (kind, name) in enumerate((("ours", "the library"), ("rust", "ordinary Rust"), ("arena", "the same Rust with an arena")), 1):
        out.append('<path class="line %s" d="M%s"/>' % (kind, " L".join("%.1f %.1f" % (across(g[0]), along(g[i])) for g in grow)))
        out += ['<circle class="%s" cx="%.1f" cy="%.1f" r="2.6"/>' % (kind, across(g[0]), along(g[i])) for g in grow]
        out.append('<path class="line %s" d="M%d 24 h34"/><text class="name %s" x="%d" y="28">%s</text>' % (kind, at, kind, at + 42, name))
        at += 70 + 8 * len(name)
    os.makedirs(os.path.dirname(path), exist_ok=True)
    open(path, "w").write("\n".join(out + ["</svg>", ""]))


def main():
    if len(sys.argv) < 3:
        sys.exit(__doc__)
    b = Bench(*sys.argv[1:3])
    b.say("machine", "Measured on: %s. Types: %s." % (machine(), open(os.path.join(b.out, "lists", "about")).read().strip()))
    for part in (b.agreement, b.stack, b.by_part, b.instructions, b.growth, b.lending, b.in_node, b.meaning):
        part()
    with open(os.path.join(b.out, "figures.txt"), "w") as f:
        f.write("\n\n".join(b.blocks.values()) + "\n\n" + "".join(b.kept))
    if "--write" in sys.argv:
        page = os.path.join(ROOT, "docs", "SPEED.md")
        text = open(page).read()
        for name, block in b.blocks.items():
            text, n = re.subn(r"(<!-- %s -->\n).*?(<!-- end -->)" % name, lambda x: x[1] + block + "\n" + x[2], text, flags=re.S)
            if n != 1:
                sys.exit("docs/SPEED.md has %d places for %s" % (n, name))
        open(page, "w").write(text)
        picture(b.grow, os.path.join(ROOT, "docs", "pictures", "speed.svg"))


if __name__ == "__main__":
    main()
