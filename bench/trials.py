#!/usr/bin/env python3
"""How long types take whose constraints of infer are tried: one in the other, side by side, in brackets, members and templates.

    trials.py OUT LIB [UNLIMITED] [--write]    OUT for files, LIB the library; UNLIMITED a library of before four trials were the most

It prints a table. --write puts it into docs/SPEED.md, between its marks, and draws docs/pictures/trials.svg: the time of a call against its tokens,
both axes by powers. Needs gcc. With UNLIMITED the same nests are read by that one too, up to 14 in one another.
"""
import math
import os
import re
import struct
import subprocess
import sys

ROOT = os.path.join(os.path.dirname(os.path.abspath(__file__)), "..")
sys.path[:0] = [os.path.join(ROOT, "tools"), os.path.join(ROOT, "bench")]
import model as m
from report import STYLE, table, whole

# One way round a type, so often: what stands before it and behind it. Each is a trial that a `?` drops, so its inside is read twice.
BRACKETS = "(infer A extends ", " ? X : Y)"
MEMBERS = "{ a: infer A extends ", " ? X : Y }"
TEMPLATES = "`${infer A extends ", " ? X : Y}`"


def nest(way, n, inner="A"): return way[0] * n + inner + way[1] * n
def row(entry, n): return "[" + ", ".join([entry] * n) + "]"


COUNTS = 1, 3, 10, 30, 100, 200, 300
SERIES = {
    "plain": ("no infer", [row("A", n) for n in (5, 16, 50, 160, 500, 1600, 4000)]),
    "side": ("side by side", [row("infer A extends B", n) for n in COUNTS]),
    "brackets": ("four in brackets", [nest(BRACKETS, 4, "A<" + ", ".join("B" * n) + ">") for n in (1, 10, 30, 100, 300, 1000, 3000)]),
    "members": ("four in members", [row(nest(MEMBERS, 4), n) for n in COUNTS]),
    "templates": ("four in templates", [row(nest(TEMPLATES, 4), n) for n in COUNTS]),
    "nested": ("in one another, 1 to 4; refused from 5 on", [nest(BRACKETS, n) for n in (1, 2, 3, 4, 5, 6, 8, 10, 12, 14, 31)]),
}
UNLIMITED = "the same with no limit"
KINDS = {"plain": "arena", "side": "ours", "brackets": "rust", "members": "members", "templates": "templates", "nested": "nested", "unlimited": "unlimited"}
MORE = """
  .members { stroke: #7a3aa8; fill: #7a3aa8 } .templates { stroke: #8a7400; fill: #8a7400 } .nested { stroke: #c01a3a; fill: #c01a3a } .unlimited { stroke: #777; fill: #777 }
  .line { fill: none } .name { stroke: none } .refused { fill: #fff } .unlimited.line { stroke-dasharray: 2 4 }
  @media (prefers-color-scheme: dark) {
    .members { stroke: #c79bf0; fill: #c79bf0 } .templates { stroke: #e0c74a; fill: #e0c74a } .nested { stroke: #ff7d92; fill: #ff7d92 } .unlimited { stroke: #999; fill: #999 }
    .line { fill: none } .name { stroke: none } .refused { fill: #111 }
  }
"""


def built(out, lib):
    program = os.path.join(out, "trials")
    subprocess.run(["gcc", "-O2", "-Wall", "-Wextra", "-I" + os.path.join(ROOT, "include"), os.path.join(ROOT, "bench", "trials.c"), os.path.join(lib, "libtypekey.a"), "-o", program], check=True)
    return program


def measured(program, texts):
    """Answer, tokens, type rules entered and ns of each text."""
    lists = program + ".lists"
    with open(lists, "wb") as f:
        for t in texts:
            words = m.cut(t)
            f.write(struct.pack("<2I", len(t), len(words)) + t.encode() + struct.pack("<%dQ" % len(words), *words))
    said = subprocess.run([program, lists], check=True, capture_output=True, text=True).stdout
    return [tuple(map(int, line.split())) for line in said.splitlines()]


def picture(figures, path):
    width, height, left, right, up, down = 760, 520, 84, 20, 132, 56
    points = [p for _, l in figures.values() for p in l]
    low_n, high_n, low, high = 5, max(p[1] for p in points) * 1.1, min(p[3] for p in points) * 0.7, max(p[3] for p in points) * 1.4
    across = lambda n: left + (width - left - right) * math.log(n / low_n) / math.log(high_n / low_n)
    along = lambda t: height - down - (height - up - down) * math.log(t / low) / math.log(high / low)
    out = ['<svg xmlns="http://www.w3.org/2000/svg" viewBox="0 0 %d %d" width="%d" height="%d" role="img">' % (width, height, width, height),
           "<title>Time of a call against its tokens, for types with constraints of infer</title>", "<style>%s%s</style>" % (STYLE, MORE)]
    for t in (10 ** k for k in range(9)):
        if low <= t < high:
            name = "%d ns" % t if t < 1000 else "%d µs" % (t // 1000) if t < 10 ** 6 else "%d ms" % (t // 10 ** 6)
            out.append('<line class="grid" x1="%d" x2="%d" y1="%.1f" y2="%.1f"/><text x="%d" y="%.1f" text-anchor="end">%s</text>' % (left, width - right, along(t), along(t), left - 8, along(t) + 4, name))
    for n in (10, 30, 100, 300, 1000, 3000, 10000):
        out.append('<line class="grid" x1="%.1f" x2="%.1f" y1="%d" y2="%d"/><text x="%.1f" y="%d" text-anchor="middle">%s</text>' % (across(n), across(n), up, height - down, across(n), height - down + 18, whole(n)))
    out.append('<line class="axis" x1="%d" x2="%d" y1="%d" y2="%d"/><line class="axis" x1="%d" x2="%d" y1="%d" y2="%d"/>' % (left, width - right, height - down, height - down, left, left, up, height - down))
    out.append('<text x="%d" y="%d" text-anchor="middle">tokens of a type, the Eof among them</text>' % ((left + width - right) / 2, height - 12))
    out.append('<text transform="translate(18 %d) rotate(-90)" text-anchor="middle">a call: check, read and key</text>' % ((up + height - down) / 2))
    for i, (key, (name, l)) in enumerate(figures.items()):
        kind, x, y = KINDS[key], left + 6 + 340 * (i % 2), 18 + 26 * (i // 2)
        read = [p for p in l if p[0] == 0]
        out.append('<path class="line %s" d="M%s"/>' % (kind, " L".join("%.1f %.1f" % (across(p[1]), along(p[3])) for p in read)))
        out += ['<circle class="%s%s" cx="%.1f" cy="%.1f" r="%s"/>' % (kind, "" if p[0] == 0 else " refused", across(p[1]), along(p[3]), "2.6" if p[0] == 0 else "3.2") for p in l]
        out.append('<path class="line %s" d="M%d %d h34"/><text class="name %s" x="%d" y="%d">%s</text>' % (kind, x, y, kind, x + 42, y + 4, name))
    open(path, "w").write("\n".join(out + ["</svg>", ""]))


def said(figures):
    rows = []
    for name, l in figures.values():
        for i, (answer, tokens, entered, ns) in enumerate(l):
            if i in (0, len(l) - 1) or answer or "one another" in name or name == UNLIMITED:
                rows.append([name.split(",")[0], whole(tokens), "refused" if answer else whole(entered), "" if answer else "%.2f" % (entered / tokens), whole(ns), "%.0f" % (ns / tokens)])
    return table(["constraints of infer", "tokens", "type rules entered", "a token", "ns a call", "ns a token"], rows)


def main():
    words = [w for w in sys.argv[1:] if w != "--write"]
    if len(words) < 2:
        sys.exit(__doc__)
    program = built(*words[:2])
    figures = {key: (name, measured(program, texts)) for key, (name, texts) in SERIES.items()}
    for name, l in figures.values():
        assert all(a == 0 or a == 28 for a, *_ in l) and all(e <= 16 * n for a, n, e, _ in l), name
    if words[2:]:
        figures["unlimited"] = UNLIMITED, [(a, n, 5 * 2 ** k - 4, t) for k, (a, n, _, t) in zip((5, 6, 8, 10, 12, 14), measured(built(words[0], words[2]), SERIES["nested"][1][4:10]))]
    print(said(figures))
    if "--write" in sys.argv:
        page = os.path.join(ROOT, "docs", "SPEED.md")
        text, n = re.subn(r"(<!-- trials -->\n).*?(<!-- end -->)", lambda x: x[1] + said(figures) + "\n" + x[2], open(page).read(), flags=re.S)
        if n != 1:
            sys.exit("docs/SPEED.md has %d places for trials" % n)
        open(page, "w").write(text)
        picture(figures, os.path.join(ROOT, "docs", "pictures", "trials.svg"))


if __name__ == "__main__":
    main()
