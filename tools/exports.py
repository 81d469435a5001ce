#!/usr/bin/env python3
"""exports.py IN.ll OUT.ll PROGRAM: for a library that is built without proof. A program exports nothing, so this adds the exported C
functions to a program's LLVM text as a static library has them. The functions are in the program, which calls each once."""
import re
import sys

# s: a slice, u: a 64-bit number, p: a reference to an array
EXPORTS = {"typekey_read": "ssuussssp", "typekey_take_back": "ssssp", "typekey_differ": "sssp"}


def exported(program, name, parts):
    params, body, args = [], [], []
    for i, part in enumerate(parts):
        if part == "s":                                                 # a slice of no bytes may be a null pointer
            params += [f"ptr noundef %a{i}", f"i64 noundef %n{i}"]
            body += [f"%z{i} = icmp eq ptr %a{i}, null", f"%y{i} = zext i1 %z{i} to i64", f"%x{i} = mul i64 %y{i}, 4096",
                     f"%s{i} = getelementptr i8, ptr %a{i}, i64 %x{i}"]
            args += [f"ptr %s{i}", f"i64 %n{i}"]
        else:
            kind = "i64" if part == "u" else "ptr"
            params.append(f"{kind} noundef %a{i}")
            args.append(f"{kind} %a{i}")
    body += [f'call void @"{program}::{name}"({", ".join(args)})', "ret void"]
    return f'define void @{name}({", ".join(params)}) #0 {{\nstart:\n  ' + "\n  ".join(body) + "\n}\n"


def main():
    source, to, program = sys.argv[1:]
    text = re.sub(r'^define (?:i32 @main|[^\n]*@"%s::main")\(.*?^\}\n|^declare i64 @__sysv_signal\(.*?\n' % program, "", open(source).read(), flags=re.M | re.S)
    i = text.index("\nattributes #0")
    open(to, "w").write(text[:i] + "\n" + "\n".join(exported(program, *x) for x in EXPORTS.items()) + text[i:])


if __name__ == "__main__":
    main()
