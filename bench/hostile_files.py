#!/usr/bin/env python3
"""Files and values that are hard to take, given to a proved program.

    bench/hostile_files.py PROGRAM [NAME..]

Writes each to a folder of its own, runs PROGRAM on it, and prints its size, the status, the processor's seconds, the greatest memory, how much
of it is beyond the input and an idle run, and the answer. With names, only these are tried. The greatest takes a file of 1 GiB and as
much memory. Fails where a run has another status or another line than is wanted here, or takes more memory beyond the input than it may.
"""
import os
import subprocess
import sys
import tempfile

MEGABYTE = 1_000_000
FILE_LIMIT = 1 << 30
VALUE_LIMIT = 1 << 26
ITEMS = 33_000_000


def varint(n):
    out = bytearray()
    while n >= 128:
        out.append(n % 128 + 128)
        n //= 128
    out.append(n)
    return bytes(out)


def zigzag(n):
    return varint(2 * n if n >= 0 else -2 * n - 1)


def file_of(schema, content=b""):
    return b"FZ2P" + len(schema).to_bytes(4, "little") + schema + content


def entries(count, pairs):
    """A map from i16 to structs."""
    return varint(count) + b"\x4c" + pairs if count else b"\x00"


def child(number, node, offset):
    """A field of a layout: its id, and the layout that it is of."""
    return zigzag(number) + b"\x14" + zigzag(node) + b"\x14" + zigzag(offset) + b"\x00"


def layout(number, bits, children, name):
    """A layout under its number, as version 2 writes it."""
    fields = b"\x1b" + entries(len(children), b"".join(child(*c) for c in children))
    return zigzag(number) + b"\x15\x00\x14" + zigzag(bits) + fields + b"\x18" + varint(len(name)) + name + b"\x16\x00\x00"


def schema(count, layouts):
    """A schema of version 2 of so many layouts."""
    return b"\x11\x1b" + entries(count, layouts) + b"\x14\x00\x15\x04\x00"


def one_layout_again_and_again(length):
    """A file of so many bytes, whose schema has the layout 0, empty, as often as there is room."""
    count = (length - 16) // 2
    while True:
        bytes_of = file_of(b"\x2b" + varint(count) + b"\x4c" + bytes(2 * count) + b"\x00")
        if len(bytes_of) <= length:
            return bytes_of
        count -= 1


def items_of_no_bits():
    """A list of structs without fields, whose items take no bits: distance 4 in 3 bits, and the count in 25."""
    layouts = [
        layout(0, 28, [(1, 1, 0)], b"struct"),
        layout(1, 28, [(1, 2, 0), (2, 3, -3), (3, 4, 0)], b"list"),
        layout(2, 3, [], b"size"),
        layout(3, 25, [], b"size"),
        layout(4, 0, [], b"struct"),
    ]
    return file_of(schema(len(layouts), b"".join(layouts)), (4 + (ITEMS << 3)).to_bytes(4, "little"))


def every_layout():
    """A schema with a layout under each i16; the layout 0 is a struct without fields."""
    layouts = [layout(n, 0, [], b"struct") for n in range(-32768, 32768)]
    return file_of(schema(len(layouts), b"".join(layouts)))


def every_child(length):
    """Layouts with a child under each i16, up to about so many bytes."""
    children = b"".join(zigzag(n) + b"\x00" for n in range(-32768, 32768))
    body = b"\x3b" + entries(65_536, children) + b"\x00"
    count = length // (len(body) + 3)
    return file_of(schema(count, b"".join(zigzag(n) + body for n in range(count))))


def set_of_flags():
    """A value of a set of bools, false and true by turns."""
    count = VALUE_LIMIT - 7
    return b"\x1a\xf1" + varint(count) + (b"\x02\x01" * (count // 2 + 1))[:count] + b"\x00"


ITEMS_DEFINITION = "struct E{} struct S{1: list<E> a}"
FLAGS_DEFINITION = "struct S{1: set<bool> a}"
SCHEMA_FAULT = "file 2 schema 2 node 4\n"

# The name, a definition, the bytes, the command's words (DEF and FILE stand for the files), the status, what is wanted on out and on err,
# and how many megabytes it may take beyond the input and an idle run, where that is bound.
CASES = [
    ("one layout, 2 MB", None, lambda: one_layout_again_and_again(2 * MEGABYTE), "layout FILE", 3, "", SCHEMA_FAULT, 4),
    ("one layout, 64 MB", None, lambda: one_layout_again_and_again(64 * MEGABYTE), "layout FILE", 3, "", SCHEMA_FAULT, 4),
    ("one layout, 1 GiB", None, lambda: one_layout_again_and_again(FILE_LIMIT), "layout FILE", 3, "", SCHEMA_FAULT, 4),
    ("no bits, check", ITEMS_DEFINITION, items_of_no_bits, "check DEF FILE", 0, None, "", None),
    ("no bits, layout", None, items_of_no_bits, "layout FILE", 0, None, "", None),
    ("no bits, get", ITEMS_DEFINITION, items_of_no_bits, f"get DEF FILE .a[{ITEMS - 1}]", 0, "{}\n", "", None),
    ("no bits, upgrade", None, items_of_no_bits, "upgrade FILE", 0, None, "", None),
    ("65,536 layouts", None, every_layout, "layout FILE", 3, "", "file 2 schema 4 layout -32768\n", None),
    ("65,536 children", None, lambda: every_child(64 * MEGABYTE), "layout FILE", 3, "", "file 2 schema 4 layout 0\n", None),
    ("a set of bools", FLAGS_DEFINITION, set_of_flags, "freeze DEF FILE", 3, "", "value 5 node 4\n", 4),
]


def measured(words, out):
    """The status, what was written to err, the processor's seconds and the megabytes of one run, whose output goes to a file."""
    with open(out, "wb") as sink:
        child = subprocess.Popen(words, stdout=sink, stderr=subprocess.PIPE)
        err = child.stderr.read()
        _, status, usage = os.wait4(child.pid, 0)
    seconds = usage.ru_utime + usage.ru_stime
    return os.waitstatus_to_exitcode(status), err.decode(), seconds, usage.ru_maxrss * 1024 / MEGABYTE


def main():
    if len(sys.argv) < 2:
        sys.exit(__doc__)
    program, names, bad = sys.argv[1], sys.argv[2:], 0
    with tempfile.TemporaryDirectory() as folder:
        definition, file, out = (os.path.join(folder, name) for name in ("definition", "file", "out"))
        _, _, _, idle = measured([program, "layout", file], out)
        for name, text, make, command, want_status, want_out, want_err, most in CASES:
            if names and name not in names:
                continue
            with open(definition, "w") as sink:
                sink.write(text or "")
            with open(file, "wb") as sink:
                sink.write(make())
            size = os.path.getsize(file)
            words = [{"DEF": definition, "FILE": file}.get(word, word) for word in command.split()]
            status, err, seconds, megabytes = measured([program] + words, out)
            beyond = megabytes - idle - size / MEGABYTE
            with open(out, "rb") as source:
                answer = source.read(200)
            faults = []
            if status != want_status or err != want_err:
                faults.append(f"status {want_status} and {want_err!r} were wanted")
            if want_out is not None and answer != want_out.encode():
                faults.append(f"{want_out!r} was wanted")
            if most is not None and beyond > most:
                faults.append(f"at most {most} MB beyond the input were wanted")
            bad += bool(faults)
            told = err.strip() or f"{os.path.getsize(out)} bytes"
            print(
                f"{name:18} {size:10} bytes  status {status}  {seconds:7.3f} s  {megabytes:8.1f} MB, {beyond:7.1f} beyond"
                f"  {told}  {', '.join(faults) or 'ok'}",
                flush=True,
            )
    sys.exit(1 if bad else 0)


if __name__ == "__main__":
    main()
