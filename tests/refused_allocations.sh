#!/bin/sh
# Refuses each allocation of a run in turn, for one run of each command that takes much memory. Each run has to end with status 6
# and nothing on either output, or as without a refusal. It stands outside the gate, and wants a C compiler.
#
#     tests/refused_allocations.sh [BIN]      BIN is a built program; without it build/frozen
#
# The last line counts what passed and what failed.
top=$(cd "$(dirname "$0")/.." && pwd) || exit 1
bin=${1:-$top/build/frozen}
[ -x "$bin" ] || { echo "no built program: give one, or run ./frozen build"; exit 1; }
bin=$(cd "$(dirname "$bin")" && pwd)/$(basename "$bin")

room=$(mktemp -d) || exit 1
trap 'rm -rf "$room"' EXIT
"${CC:-cc}" -O1 -shared -fPIC -o "$room/refuse.so" "$top/tests/refuse.c" -ldl || exit 1
cp "$top/examples/users.thrift" "$top/examples/users_later.thrift" "$top/examples/users.compact" "$room" || exit 1
cd "$room" || exit 1
printf 'struct P {1: i32 x; 2: i32 y}' >def
printf '\025\012\025\001\000' >value
"$bin" freeze def value >file && "$bin" freeze users.thrift users.compact >users || exit 1
# the file of 5 and -1 in version 1
printf 'FZ2P\100\000\000\000\022\033\003\114\000\025\000\024\012\033\002\114\002\024\002\024\000\000\004\024\004\024\007\000' >first
printf '\030\006struct\000\002\025\000\024\010\033\000\030\003i32\000\004\025\000\024\002\033\000\030\003i32\000' >>first
printf '\024\000\025\002\000\025' >>first

passed=0
failed=0
fail() {
    failed=$((failed + 1))
    echo "FAIL $*"
}

# each WORDS ..: refuses each allocation of the run of these words.
each() {
    REFUSE=0 REFUSE_COUNT=count LD_PRELOAD=$room/refuse.so "$bin" "$@" >whole_out 2>whole_err
    whole=$?
    [ $whole -eq 0 ] || fail "$*: status $whole"
    count=$(cat count)
    without=0
    refuse=1
    while [ $refuse -le "$count" ]; do
        REFUSE=$refuse LD_PRELOAD=$room/refuse.so "$bin" "$@" >out 2>err
        status=$?
        if [ $status -eq 6 ] && [ ! -s out ] && [ ! -s err ]; then
            passed=$((passed + 1))
        elif [ $status -eq $whole ] && cmp -s out whole_out && cmp -s err whole_err; then
            passed=$((passed + 1))
            without=$((without + 1))
        else
            fail "$*: allocation $refuse refused: status $status"
        fi
        refuse=$((refuse + 1))
    done
    echo "$*: $count allocations; refused in turn, $((count - without)) runs ended for want of memory, $without as without"
}
each freeze def value
each freeze users.thrift users.compact
each get users_later.thrift users '.users{42}'
each scan users.thrift users .users
each thaw users_later.thrift users
each check users.thrift users
each layout users
each upgrade first
each upgrade users
each print users.thrift
each demo 3
echo "$passed passed, $failed failed"
[ $failed -eq 0 ]
