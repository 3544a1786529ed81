"""The cases of a built `frozen` that depend on the machine: which files open, which streams take bytes, which words are
text, how much memory there is."""
import os
import resource
import shutil
import subprocess
import tempfile

SECONDS = 120
NOBODY = 65534
DEFINITION = b"struct P {1: i32 x; 2: i32 y}"
PRINTED = b"struct P {\n  1: i32 x;\n  2: i32 y;\n}\n"
VALUE = bytes.fromhex("150a150100")
FILE = bytes.fromhex(
    "465a325040000000121b034c001500140a1b024c02140214000004140414070018067374727563740002150014081b001803693332000415001402"
    "1b00180369333200140015020015"
)
USAGE = b"usage: frozen COMMAND WORDS\n"

# Name, words, and how the program is started: `out` and `err` are what the streams are (a file's name, 'closed', or
# 'broken pipe'), `pipe` is what stands in a pipe on standard input, `nobody` that it runs with no rights to what is root's,
# `memory` the bytes that it may have. Then status, output and err.
CASES = [
    ("definition_missing", ["print", "none"], {}, (4, b"", b"definition missing\n")),
    ("value_missing", ["freeze", "d", "none"], {}, (4, b"", b"value missing\n")),
    ("file_missing", ["get", "d", "none", ".x"], {}, (4, b"", b"file missing\n")),
    ("empty_word_as_file", ["print", ""], {}, (4, b"", b"definition missing\n")),
    ("link_to_nothing", ["print", "loose"], {}, (4, b"", b"definition missing\n")),
    ("link_is_followed", ["print", "link"], {}, (0, PRINTED, b"")),
    ("name_with_spaces_and_quotes", ["print", "a 'b\" é\n"], {}, (0, PRINTED, b"")),
    ("name_with_a_minus", ["print", "-d"], {}, (0, PRINTED, b"")),
    ("folder_as_definition", ["print", "folder"], {}, (4, b"", b"definition unreadable\n")),
    ("folder_as_value", ["freeze", "d", "folder"], {}, (4, b"", b"value unreadable\n")),
    ("folder_as_file", ["get", "d", "folder", ".x"], {}, (4, b"", b"file unreadable\n")),
    ("name_below_a_file", ["print", "d/x"], {}, (4, b"", b"definition unreadable\n")),
    ("name_too_long", ["print", "d" * 300], {}, (4, b"", b"definition unreadable\n")),
    ("definition_without_rights", ["print", "shut"], {"nobody": True}, (4, b"", b"definition unreadable\n")),
    ("value_without_rights", ["freeze", "d", "shut"], {"nobody": True}, (4, b"", b"value unreadable\n")),
    ("file_without_rights", ["get", "d", "shut", ".x"], {"nobody": True}, (4, b"", b"file unreadable\n")),
    ("pipe_as_file", ["print", "/dev/stdin"], {"pipe": DEFINITION}, (4, b"", b"definition unreadable\n")),
    ("file_without_end", ["print", "/dev/zero"], {}, (3, b"", b"definition too large\n")),
    ("value_without_end", ["freeze", "d", "/dev/zero"], {}, (3, b"", b"value too large\n")),
    ("no_words", [], {}, (2, b"", USAGE)),
    ("one_word_too_many", ["print", "d", "d"], {}, (2, b"", USAGE)),
    ("freeze_with_four_words", ["freeze", "d", "v", "d"], {}, (2, b"", USAGE)),
    ("get_with_five_words", ["get", "d", "f", ".x", "d"], {}, (2, b"", USAGE)),
    ("get_with_an_empty_fifth_word", ["get", "d", "f", ".x", ""], {}, (2, b"", USAGE)),
    ("get_with_four_words", ["get", "d", "f", ".x"], {}, (0, b"5\n", b"")),
    ("command_with_no_words", ["freeze"], {}, (2, b"", USAGE)),
    ("command_not_utf8", [b"\xff", "d"], {}, (2, b"", b"")),
    ("file_word_not_utf8", ["print", b"d\xff"], {}, (2, b"", b"")),
    ("path_not_utf8", ["get", "d", "f", b".\xc3"], {}, (2, b"", b"")),
    ("out_full", ["print", "d"], {"out": "/dev/full"}, (5, b"", b"write failed\n")),
    ("out_broken_pipe", ["print", "d"], {"out": "broken pipe"}, (5, b"", b"write failed\n")),
    ("out_closed", ["print", "d"], {"out": "closed"}, (5, b"", b"write failed\n")),
    ("freeze_to_full", ["freeze", "d", "v"], {"out": "/dev/full"}, (5, b"", b"write failed\n")),
    ("get_to_full", ["get", "d", "f", ".x"], {"out": "/dev/full"}, (5, b"", b"write failed\n")),
    ("get_to_closed", ["get", "d", "f", ".x"], {"out": "closed"}, (5, b"", b"write failed\n")),
    ("out_and_err_full", ["print", "d"], {"out": "/dev/full", "err": "/dev/full"}, (5, b"", b"")),
    ("err_full", ["print", "none"], {"err": "/dev/full"}, (5, b"", b"")),
    ("err_broken_pipe", ["print", "none"], {"err": "broken pipe"}, (5, b"", b"")),
    ("err_closed", ["print", "none"], {"err": "closed"}, (5, b"", b"")),
    ("err_closed_and_nothing_to_say", ["print", "d"], {"err": "closed"}, (0, PRINTED, b"")),
    ("err_full_and_usage", [], {"err": "/dev/full"}, (5, b"", b"")),
    ("no_memory_for_the_value", ["freeze", "d", "large"], {"memory": 40 << 20}, (6, b"", b"")),
]


def write(folder, name, held):
    with open(os.path.join(folder, name), "wb") as file:
        file.write(held)


def fill(folder):
    """The files of the cases."""
    for name in ("d", "a 'b\" é\n", "-d", "shut"):
        write(folder, name, DEFINITION)
    write(folder, "v", VALUE)
    write(folder, "f", FILE)
    with open(os.path.join(folder, "large"), "wb") as file:
        file.truncate(1 << 26)
    os.mkdir(os.path.join(folder, "folder"))
    os.symlink("d", os.path.join(folder, "link"))
    os.symlink("none", os.path.join(folder, "loose"))
    os.chmod(os.path.join(folder, "shut"), 0)
    os.chmod(folder, 0o755)


def stream(kind):
    """What the program gets as a stream."""
    if kind == "broken pipe":
        reads, writes = os.pipe()
        os.close(reads)
        return os.fdopen(writes, "wb")
    return open(kind, "wb") if kind not in (None, "closed") else subprocess.PIPE


def begin(how):
    """What the program's process does before it begins."""
    if how.get("memory"):
        resource.setrlimit(resource.RLIMIT_AS, (how["memory"], how["memory"]))
    if how.get("nobody") and os.getuid() == 0:
        os.setgid(NOBODY)
        os.setuid(NOBODY)
    for number, name in ((1, "out"), (2, "err")):
        if how.get(name) == "closed":
            os.close(number)


def answer_of(binary, folder, words, how):
    """What the program answers: status, output, err."""
    out, err = stream(how.get("out")), stream(how.get("err"))
    try:
        given = {"input": how["pipe"]} if "pipe" in how else {"stdin": subprocess.DEVNULL}
        ran = subprocess.run([binary] + words, cwd=folder, stdout=out, stderr=err, preexec_fn=lambda: begin(how), timeout=SECONDS, **given)
        return (ran.returncode, ran.stdout or b"", ran.stderr or b"")
    except subprocess.TimeoutExpired:
        return ("no answer in %d s" % SECONDS, b"", b"")
    finally:
        for one in (out, err):
            if one is not subprocess.PIPE:
                one.close()


def cases(binary, is_wanted):
    """Each case: its name, what the program answered, and what is wanted."""
    with tempfile.TemporaryDirectory() as folder:
        fill(folder)
        # A copy that those without rights can run too.
        copy = os.path.join(folder, "program")
        shutil.copyfile(binary, copy)
        os.chmod(copy, 0o755)
        for name, words, how, wanted in CASES:
            if is_wanted("machine/" + name):
                yield "machine/" + name, answer_of(copy, folder, words, how), wanted
