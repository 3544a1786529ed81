#!/usr/bin/env python3
"""Definition texts that are hard to read, given to a proved program.

    bench/definition_texts.py PROGRAM

Writes each text to a file, runs `PROGRAM print FILE` on it, and prints its size, the status, the processor's seconds and the greatest memory.
Fails where one takes more than a second or 200 MB, or has another status or another output than is wanted here.
"""
import os
import subprocess
import sys
import tempfile

MOST_SECONDS = 1.0
MOST_MEGABYTES = 200.0


def nested(name, containers):
    return "list<" * containers + name + ">" * containers


def chained_typedefs(count, containers):
    """Typedefs, each of the one before it in so many lists."""
    return "typedef i8 t0 " + "".join(f"typedef {nested(f't{i - 1}', containers)} t{i} " for i in range(1, count + 1))


def single_lists(length):
    """Typedefs, each a list of the one before it, up to so many bytes."""
    text = ["struct S{}typedef i8 t0 "]
    size, i = len(text[0]), 0
    while True:
        i += 1
        part = f"typedef list<t{i - 1}>t{i} "
        size += len(part)
        if size > length:
            return "".join(text)
        text.append(part)


def many_fields(typedefs, fields):
    """A struct with so many fields of a type of so many typedefs of 32 lists."""
    return chained_typedefs(typedefs, 32) + "struct S{" + "".join(f"{i}:t{typedefs} f{i} " for i in range(1, fields + 1)) + "}"


def many_members(count):
    """An enum with so many members."""
    return "struct S{}enum E{" + " ".join(f"m{i:06}" for i in range(count)) + "}"


def many_structs(length):
    """Structs with one field each, up to so many bytes."""
    text, size, i = [], 0, 0
    while True:
        part = f"struct s{i}{{1:i8 a}}"
        size += len(part)
        if size > length:
            return "".join(text)
        text.append(part)
        i += 1


def wide_struct(fields):
    return "struct S{" + "".join(f"{i}:i8 f{i} " for i in range(1, fields + 1)) + "}"


TEXTS = [
    ("32 lists a typedef", "struct S{}" + chained_typedefs(819, 32), 0, "struct S {\n}\n"),
    ("one list a typedef", single_lists(391_000), 0, "struct S {\n}\n"),
    ("fields of deep types", many_fields(400, 4000), 3, None),
    ("members of an enum", many_members(110_000), 0, None),
    ("structs of one field", many_structs(1_000_000), 0, None),
    ("fields of one struct", wide_struct(4000), 0, None),
]


def measured(program, path):
    """The status, what was written, the processor's seconds and the megabytes of one run."""
    child = subprocess.Popen([program, "print", path], stdout=subprocess.PIPE, stderr=subprocess.PIPE)
    out, err = child.stdout.read(), child.stderr.read()
    _, status, usage = os.wait4(child.pid, 0)
    seconds = usage.ru_utime + usage.ru_stime
    return os.waitstatus_to_exitcode(status), out.decode(), err.decode(), seconds, usage.ru_maxrss / 1024


def main():
    if len(sys.argv) != 2:
        sys.exit(__doc__)
    program, bad = sys.argv[1], 0
    with tempfile.TemporaryDirectory() as folder:
        for name, text, want_status, want in TEXTS:
            path = os.path.join(folder, "text.thrift")
            with open(path, "w") as file:
                file.write(text)
            status, out, err, seconds, megabytes = measured(program, path)
            faults = []
            if seconds > MOST_SECONDS:
                faults.append("too slow")
            if megabytes > MOST_MEGABYTES:
                faults.append("too much memory")
            if status != want_status or (want is not None and out != want):
                faults.append(f"status {want_status} was wanted: {err.strip() or out[:60]!r}")
            bad += bool(faults)
            print(f"{name:22} {len(text):8} bytes  status {status}  {seconds:6.3f} s  {megabytes:7.1f} MB  {', '.join(faults) or 'ok'}")
    sys.exit(1 if bad else 0)


if __name__ == "__main__":
    main()
