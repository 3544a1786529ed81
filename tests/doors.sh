#!/bin/sh
# Tests the script ./frozen, with and without a proved program.
#
#     tests/doors.sh [BIN]      BIN is a built program; without it build/frozen, or what rt has built
#     tests/doors.sh --real [BIN]   also some runs of the quick build by rt itself, which take half a minute each. In all
#                                   others a stand-in runs BIN as rt would.
#
# The last line counts what passed and what failed.
top=$(cd "$(dirname "$0")/.." && pwd) || exit 1
real=
[ "$1" = --real ] && real=yes && shift
bin=$1
for found in "$top/build/frozen" "$top/crates/frozen/out/frozen"; do
    [ "$bin" ] || [ ! -x "$found" ] || bin=$found
done
[ -x "$bin" ] || { echo "no built program: give one, or run ./frozen build"; exit 1; }
bin=$(cd "$(dirname "$bin")" && pwd)/$(basename "$bin")

room=$(mktemp -d) || exit 1
trap 'rm -rf "$room"' EXIT
passed=0
failed=0

# A house with the script, and no sources but names.
house() {
    mkdir -p "$1/crates/frozen/src" "$1/.ci" && cp "$top/frozen" "$top/VERSION" "$1" && cp "$top/.ci/sources" "$top/.ci/build" "$1/.ci"
    : >"$1/crates.txt"
    : >"$1/HANDLES"
    echo "$1" >"$1/crates/frozen/src/main.rt"
}
house "$room/proved"
mkdir "$room/proved/build"
cp "$bin" "$room/proved/build/frozen"
"$room/proved/.ci/sources" >"$room/proved/build/sources"
house "$room/quick"

# What stands in for rt: `rt try -- WORDS` runs the program in a folder of its own and says how it ended, `rt run` builds it.
mkdir "$room/rt"
cat >"$room/rt/rt" <<END
#!/bin/sh
case "\$1" in
try)
    [ ! "\$RT_IS_SILENT" ] || { echo 'checked: no answer' >&2; echo 'run=none proved=no' >&2; exit 6; }
    shift 2
    mkdir "$room/ran" && cd "$room/ran" || exit 2
    "$bin" "\$@" </dev/null
    status=\$?
    rmdir "$room/ran"
    echo "checked: ended status=\$status" >&2
    echo "run=ended status=\$status runners=1 proved=no" >&2
    exit \$status
    ;;
run)
    [ ! "\$RT_IS_SILENT" ] || exit 1
    mkdir -p out && cp "$bin" out/frozen
    ;;
esac
END
chmod +x "$room/rt/rt"
real_path=$PATH
PATH=$room/rt:$PATH
export PATH

# Files to run on: some bear the names of commands and paths.
here=$room/here
mkdir "$here" "$here/folder"
cd "$here" || exit 1
printf 'struct P {1: i32 x; 2: i32 y}' >d
printf '\025\012\025\001\000' >v
printf 'struct P {\n  1: i32 x;\n  2: i32 y;\n}\n' >printed
printf -- '-1\n' >y
printf '5\n' >x
printf '{"x":5,"y":-1}\n' >whole
printf 'demo rows=1 cells=45 nodes=30 content=27 found=1 most=1\n' >figures
printf 'nothing' >print
cp print get
cp print freeze
cp print .y
cp print .x
cp d "a 'b\" \$c"
cp d -- -d
ln -s d link
ln -s none loose
"$bin" freeze d v >f || exit 1
: >none_at_all

# check NAME STATUS OUT ERR: the last run was so. ERR is a line, or nothing.
check() {
    printf '%s' "$4" >wanted
    [ ! "$4" ] || echo >>wanted
    if [ "$status" = "$2" ] && cmp -s "$3" out && cmp -s wanted err; then
        passed=$((passed + 1))
    else
        failed=$((failed + 1))
        echo "FAIL $which: $1: status $status wanted $2; out:"
        head -c 300 out
        echo "err:"
        head -c 600 err
    fi
}

# says N: the last run said N times that it is a quick build.
says() {
    if [ "$said" = "$1" ]; then
        passed=$((passed + 1))
    else
        failed=$((failed + 1))
        echo "FAIL $which: it says $said times that it is a quick build"
    fi
}

# Runs the script, and takes what a quick build says of itself off err.
run() {
    "$script" "$@" >out 2>all
    status=$?
    strip
}
strip() {
    grep -v '^frozen: this is a quick build' all >err
    said=$(grep -c '^frozen: this is a quick build' all)
}

# Runs the script with err a terminal.
run_on_terminal() {
    python3 - "$script" "$@" <<'END' >all
import os, pty, subprocess, sys
terminal, err = pty.openpty()
with open("out", "wb") as out:
    child = subprocess.Popen(sys.argv[1:], stdin=subprocess.DEVNULL, stdout=out, stderr=err)
os.close(err)
said = b""
while True:
    try:
        part = os.read(terminal, 4096)
    except OSError:
        break
    if not part:
        break
    said += part
with open("ended", "w") as ended:
    ended.write(str(child.wait()))
sys.stdout.buffer.write(said.replace(b"\r\n", b"\n"))
END
    status=$(cat ended)
    strip
}

# Help, the version and words without a form, which no program is asked for.
doors_without_a_program() {
    for word in help --help -h; do
        run $word
        grep -q '^  print DEF ' out && : >out
        check "$word" 0 none_at_all ''
        says 0
    done
    run help get
    grep -q '^usage: ./frozen get DEF FILE PATH$' out && grep -q '^  PATH ' out && : >out
    check 'help of a command' 0 none_at_all ''
    run get --help
    grep -q '^usage: ./frozen get DEF FILE PATH$' out && : >out
    check 'a command and --help' 0 none_at_all ''
    run help frobnicate
    check 'help of no command' 2 none_at_all 'usage: frozen COMMAND WORDS'
    run --version
    grep -q '^frozen [0-9.]*: ' out && : >out
    check 'the version' 0 none_at_all ''
    says 0
    "$script" help >/dev/full 2>all
    status=$?
    : >out
    strip
    check 'help, out is full' 5 none_at_all 'write failed'
    for words in '' 'frobnicate d' 'print d d' 'get d f' 'demo 0' 'demo 100001' 'demo 1x' 'print d --output' 'freeze - -'; do
        run $words
        check "words without a form: $words" 2 none_at_all 'usage: frozen COMMAND WORDS'
        says 0
    done
    run print d "$(printf 'd\377')"
    check 'too many words, one of which is no text' 2 none_at_all ''
    run_on_terminal get d f
    tail -n 1 err >hint
    grep -q '^frozen: get takes DEF FILE PATH;' hint && sed -i '$d' err
    check 'too few words, on a terminal' 2 none_at_all 'usage: frozen COMMAND WORDS'
}

# explained NAME LINE HINT: the last run on a terminal ended with the program's line and this line of help behind it.
explained() {
    tail -n 1 err >hint
    grep -q "$3" hint && sed -i '$d' err
    check "$1" 3 none_at_all "$2"
}

# What the script says on a terminal behind a refusal of the program.
explanations() {
    printf 'struct P {\n  1: double x\n}\n' >refused
    run_on_terminal print refused
    explained 'a fault of a definition' 'definition 3 line 2' '^frozen: line 2 of the definition has .*: *1: double x$'
    printf '\357\273\277struct P {1: i32 x}' >refused
    run_on_terminal print refused
    explained 'a definition behind a byte order mark' 'definition 2 line 1' 'byte order mark'
    run_on_terminal get f d .x
    explained 'a frozen file as a definition' 'definition 2 line 1' 'the definition looks like a frozen file'
    printf '{"x": 5}' >refused
    run_on_terminal freeze d refused
    explained 'JSON as a value' 'value wire 1' 'the value looks like JSON'
    printf '\010\000\001\000\000\000\005\000' >refused
    run_on_terminal freeze d refused
    explained 'Binary Protocol as a value' 'value wire 3 at 5' 'the value looks like Binary Protocol'
    run_on_terminal get d d .x
    explained 'a definition as a frozen file' 'file 1' 'the file is no frozen file'
    run_on_terminal print d
    check 'nothing to explain' 0 printed ''
}

# Standard input and the file of the output.
files_of_the_script() {
    "$script" print - <d >out 2>all
    status=$?
    strip
    check 'the name - is standard input' 0 printed ''
    cat v | "$script" freeze d - >out 2>all
    status=$?
    strip
    check 'the name - is a pipe on standard input' 0 f ''
    "$script" print - <&- >out 2>all
    status=$?
    strip
    check 'the name -, with no standard input' 4 none_at_all 'definition unreadable'
    cp d ./-
    run print ./-
    check 'a file whose name is -' 0 printed ''
    rm -f ./- made
    run freeze d v --output made
    check 'an output file' 0 none_at_all ''
    mv made out
    check 'what it holds' 0 f ''
    run --output=made print d
    check 'an output file, named in front' 0 none_at_all ''
    cp made out
    check 'what it holds' 0 printed ''
    run freeze d d --output made
    check 'an output file, of a refused value' 3 none_at_all 'value wire 2 at 7'
    cp made out
    check 'it holds what it held' 3 printed 'value wire 2 at 7'
    run freeze d none --output unmade
    check 'an output file, of a missing value' 4 none_at_all 'value missing'
    [ ! -e unmade ] && [ "$(ls | grep -c '\.new$')" = 0 ] && passed=$((passed + 1)) || {
        failed=$((failed + 1))
        echo "FAIL $which: a refused run leaves a file"
    }
    run print d --output folder
    check 'a folder as an output file' 5 none_at_all 'write failed'
    run print d --output none/made
    check 'an output file in no folder' 5 none_at_all 'write failed'
}

cases() {
    which=$1
    script=$room/$1/frozen
    run freeze d v
    check freeze 0 f ''
    run get d f .y
    check 'get, with a file of the name of the path' 0 y ''
    run get ./d "$here/f" .x
    check 'get, by other names' 0 x ''
    run print d
    check 'print, with a file of the name of the command' 0 printed ''
    says "$2"
    run print link
    check 'a link is followed' 0 printed ''
    run print loose
    check 'a link to nothing' 4 none_at_all 'definition missing'
    run print none
    check 'a missing file' 4 none_at_all 'definition missing'
    run print ''
    check 'an empty name' 4 none_at_all 'definition missing'
    run print folder
    check 'a folder' 4 none_at_all 'definition unreadable'
    run print "a 'b\" \$c"
    check 'a name with quotes' 0 printed ''
    run print -d
    check 'a name with a minus' 0 printed ''
    run get d f ''
    check 'an empty path' 0 whole ''
    run get d f .none
    check 'no such field' 2 none_at_all 'path 2 at 0'
    run print "$(printf 'd\377')"
    check 'a word that is no text' 2 none_at_all ''

    cat d | "$script" print /dev/stdin >out 2>all
    status=$?
    strip
    check 'a pipe on standard input' 0 printed ''
    "$script" print /dev/stdin <d >out 2>all
    status=$?
    strip
    check 'a file on standard input' 0 printed ''
    rm -f pipe && mkfifo pipe
    cat v >pipe &
    run freeze d pipe
    check 'a pipe with a name' 0 f ''
    run print /dev/null
    check 'a device with nothing' 3 none_at_all 'definition 13'
    run print /dev/zero
    check 'a device without end' 3 none_at_all 'definition too large'

    "$script" print d >/dev/full 2>all
    status=$?
    : >out
    strip
    check 'out is full' 5 none_at_all 'write failed'
    { sleep 1; "$script" print d 2>all; echo $? >ended; } | true
    status=$(cat ended)
    strip
    check 'out is a pipe that nobody reads' 5 none_at_all 'write failed'
    "$script" print d 2>all >&-
    status=$?
    strip
    check 'out is closed' 5 none_at_all 'write failed'
    "$script" print none >out 2>/dev/full
    status=$?
    : >all
    strip
    check 'err is full' 5 none_at_all ''

    doors_without_a_program
    explanations
    files_of_the_script
    ln -sf "$script" by_link
    script=./by_link
    run print d
    check 'the script by a link' 0 printed ''
    script=$room/$1/frozen
    run upgrade f
    check 'upgrade' 0 f ''
    run demo 1
    check 'demo' 0 figures ''
    "$script" help | sed -n 's/^  \([a-z]* [A-Z].*[A-Z]\) .*/\1/p' >forms
    while read -r form; do
        run $form
        grep -q usage err && { failed=$((failed + 1)); echo "FAIL $which: help names '$form', which has no form"; } || passed=$((passed + 1))
    done <forms
}

cases proved 0
cases quick 1

# Without an answer, and from no program to a proved one and to an old one.
which=build
script=$room/quick/frozen
RT_IS_SILENT=yes
export RT_IS_SILENT
run print d
grep -q 'gave no answer' err && : >err
check 'a quick build without an answer' 70 none_at_all ''
run build
grep -q 'not built' err && : >err
check 'a build that is not proved' 1 none_at_all ''
unset RT_IS_SILENT
run build
grep -q 'proved and built' err && : >err
check 'build' 0 none_at_all ''
run print d
check 'print, after build' 0 printed ''
says 0
echo more >>"$room/quick/crates/frozen/src/main.rt"
run print d
check 'print, after an edit' 0 printed ''
says 1

if [ "$real" ]; then
    which=real
    PATH=$real_path
    mkdir "$room/real"
    (cd "$top" && tar cf - --exclude=out frozen .ci crates crates.txt HANDLES) | tar xf - -C "$room/real"
    script=$room/real/frozen
    run freeze d v
    check freeze 0 f ''
    says 1
    cat d | "$script" get /dev/stdin f .y >out 2>all
    status=$?
    strip
    check 'get, with a pipe' 0 y ''
    run print folder
    check 'a folder' 4 none_at_all 'definition unreadable'
    run print args
    check 'a name that is a file beside the source' 4 none_at_all 'definition missing'
    run
    check 'no words' 2 none_at_all 'usage: frozen COMMAND WORDS'
    run print "$(printf 'd\377')"
    check 'a word that is no text' 2 none_at_all ''
    "$script" print d >/dev/full 2>all
    status=$?
    : >out
    strip
    check 'out is full' 5 none_at_all 'write failed'
    awk 'BEGIN { for (n = 1; n < 30000; n++) printf "enum E%d {A;B;C;D}\n", n; print "struct S {1: i32 x}" }' >long
    run print long
    grep -q 'gave no answer' err && : >err
    check 'more output than a quick build gives' 70 none_at_all ''
fi

echo "$passed passed, $failed failed"
[ "$failed" -eq 0 ]
