#!/usr/bin/env python3
"""run.py [CLANG]: tries tools/check_ir.py on each module of cases.ll: those that it has to pass, and those that it has to refuse, with what it
then says; and tools/flat.py, and the comparison with what rattle wrote, on slips in flat.py's place. With a CLANG, that has to read each
module, so that none is refused for being no module. The last line is 'ir tests: N tried, M failed'. Exit 1 if one fails."""
import contextlib
import io
import pathlib
import re
import subprocess
import sys
import tempfile

here = pathlib.Path(__file__).resolve().parent
sys.path.insert(0, str(here.parents[1] / "tools"))
import check_ir
import flat

BEHIND = """
declare void @llvm.memset.p0.i64(ptr writeonly captures(none), i8, i64, i1 immarg) #1

declare void @llvm.memmove.p0.p0.i64(ptr writeonly captures(none), ptr readonly captures(none), i64, i1 immarg) #2

declare void @llvm.trap() #3

attributes #0 = { nounwind }
attributes #1 = { nocallback nofree nounwind willreturn memory(argmem: write) }
attributes #2 = { nocallback nofree nounwind willreturn memory(argmem: readwrite) }
attributes #3 = { cold noreturn nounwind memory(inaccessiblemem: write) }
"""
# A slip of flat.py: what its text has once, and what stands in its place; the comparison has to find the line.
SLIPS = (
    ("%r0.at = getelementptr i8, ptr %a0, i64 8", "%r0.at = getelementptr i8, ptr %a0, i64 4"),
    ("%r0.first = load i8, ptr %a0, align 8", "%r0.first = load i8, ptr %a1, align 8"),
    ("%r0.first = load i8, ptr %a0, align 8", "%r0.first = load i8, ptr %a0, align 16"),
    ("%r0.second = load ptr, ptr %r0.at, align 8", "%r0.second = load ptr, ptr %a0, align 8"),
    ("%r1.second = load i64, ptr %r1.at, align 4", "%r1.second = load i64, ptr %r1.at, align 8"),
    ("%r0 = insertvalue { i8, ptr } %r0.half, ptr %r0.second, 1", "%r0 = insertvalue { i8, ptr } %r0.half, ptr %a1, 1"),
    ("  %r1.half = insertvalue { ptr, i64 } poison, ptr %r1.first, 0\n", ""),
    ("%r2 = load { i8, i64 }, ptr %a2, align 8", "%r2 = load { i8, i64 }, ptr %a0, align 8"),
    ("%r3 = ptrtoint ptr %a0 to i64", "%r3 = ptrtoint ptr %a1 to i64"),
    ("%r5 = sub i64 %r3, %r4", "%r5 = sub i64 %r4, %r3"),
    ("%r6 = icmp ult i64 %r5, 16", "%r6 = icmp ult i64 %r5, 8"),
    ("  ret { i8, ptr } %r0\n", "  call void @llvm.trap()\n  unreachable\n"),
    ("memory(inaccessiblemem: write) }\n", "memory(inaccessiblemem: write) }\n\ndefine void @more() #0 {\nstart:\n  ret void\n}\n"),
    ("attributes #3 = { cold noreturn nounwind memory(inaccessiblemem: write) }\n", ""),
)


def whole(text):
    """A module with what each of them needs behind it, but for what it declares itself."""
    return text + "\n" + "".join(b for b in BEHIND.splitlines(True) if b == "\n" or b.split("(")[0] not in text)


def says(tool, *names):
    """What a tool prints, and how it ends."""
    sys.argv = [tool.__name__, *map(str, names)]
    with contextlib.redirect_stdout(io.StringIO()) as said:
        try: tool.main()
        except SystemExit as end: return said.getvalue().splitlines(), int(end.code or 0)
    return said.getvalue().splitlines(), 0


def checked(at, *texts):
    """What check_ir.py says of a module, and of what it was before, without the numbers of the lines."""
    names = [at / ("%d.ll" % i) for i, _ in enumerate(texts)]
    for name, text in zip(names, texts): name.write_text(text)
    lines, status = says(check_ir, *names)
    found = [re.sub(r"^line \d+: ", "", line) for line in lines[:-1]]
    return found if (lines[-1], status) == ("%d faults" % len(found), len(found) > 0) else ["it counts wrong"]


def main():
    clang, tried, failed = sys.argv[1:], 0, 0

    def tell(fine, name, found):
        nonlocal tried, failed
        tried += 1
        if not fine:
            failed += 1
            print("failed: %s: %s" % (name, "; ".join(found) or "it passes"))

    with tempfile.TemporaryDirectory() as at:
        at = pathlib.Path(at)
        for case in re.split(r"^;; (?!as written)", (here / "cases.ll").read_text(), flags=re.M)[1:]:
            name, text = case.split("\n", 1)
            wanted = re.findall(r"^; refused: (.*)", text, flags=re.M)
            texts = re.sub(r"^; refused: .*\n", "", text, flags=re.M).rstrip("\n").split("\n;; as written\n")
            module, *written = map(whole, texts)
            tell((found := checked(at, module, *written)) == wanted, name, found)
            if clang:
                read = subprocess.run([*clang, "-w", "-S", "-emit-llvm", "-Xclang", "-disable-llvm-passes", "-o", "/dev/null", at / "0.ll"], capture_output=True, text=True)
                tell(read.returncode == 0, name + ", as clang reads it", read.stderr.splitlines()[:1])
            for w in written:
                says(flat, at / "1.ll", at / "flat.ll")
                tell((at / "flat.ll").read_text() == (at / "0.ll").read_text(), name + ", by flat.py", ["another text"])
                for old, new in SLIPS:
                    found = checked(at, module.replace(old, new), w)
                    tell(module.count(old) == 1 and any(f.startswith("not as it was written: ") for f in found), "a slip: " + repr(new), found)
    print("ir tests: %d tried, %d failed" % (tried, failed))
    sys.exit(failed > 0 or tried == 0)


if __name__ == "__main__":
    main()
