#!/usr/bin/env python3
"""The most stack that a call of the library takes, read off the compiled code.

    python3 tools/stack.py [ARCHIVE [FUNCTION]]

Adds up, along the deepest chain of calls, what each function pushes and subtracts from the stack pointer, and the return
addresses. The library has no recursion; an indirect call or a loop in the calls is an error. memcpy and memset of the C
library are counted with 256 bytes each.
"""
import re
import subprocess
import sys

OUTSIDE = {"memcpy": 256, "memset": 256, "memmove": 256, "memcmp": 256}


def functions(archive):
    text = subprocess.run(["objdump", "-dr", "--no-show-raw-insn", archive], check=True, capture_output=True, text=True).stdout
    found, name = {}, None
    for line in text.split("\n"):
        head = re.match(r"[0-9a-f]+ <(.*)>:$", line)
        if head:
            name = head.group(1)
            found[name] = (0, set())
            continue
        if name is None:
            continue
        frame, calls = found[name]
        op = re.match(r"\s+[0-9a-f]+:\s+(\S+)\s*(.*)$", line)
        if op and op.group(1).startswith("push"):
            frame += 8
        elif op and op.group(1) == "sub" and op.group(2).endswith(",%rsp"):
            frame += int(op.group(2).split(",")[0].lstrip("$"), 16)
        elif op and op.group(1).startswith("call") and "*" in op.group(2):
            sys.exit(f"{name}: an indirect call")
        called = re.match(r"\s+[0-9a-f]+:\s+R_X86_64_(?:PLT32|PC32|GOTPCREL\w*)\s+(.*?)(?:-0x[0-9a-f]+)?$", line)
        if called:
            calls.add(called.group(1).removeprefix(".text."))
        found[name] = (frame, calls)
    return found


def depth(found, name, above):
    if name in above:
        sys.exit(f"a loop in the calls: {name}")
    if name not in found:
        return OUTSIDE.get(name, 0), [name]
    frame, calls = found[name]
    best, path = 0, []
    for called in sorted(calls):
        if called in found or called in OUTSIDE:
            below, chain = depth(found, called, above | {name})
            if below > best:
                best, path = below, chain
    return 8 + frame + best, [name] + path


def main():
    archive = sys.argv[1] if len(sys.argv) > 1 else "crates/host/out/libhost.a"
    start = sys.argv[2] if len(sys.argv) > 2 else "vangprune_verdict"
    found = functions(archive)
    if start not in found:
        sys.exit(f"no {start} in {archive}")
    total, path = depth(found, start, frozenset())
    for name in path:
        print(f"{found[name][0] + 8 if name in found else OUTSIDE.get(name, 0):8d}  {name}")
    print(f"{total:8d}  bytes at the most")


main()
