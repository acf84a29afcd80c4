# shellcheck shell=bash
# What the suites share: failing, building, comparing. A suite goes to the top of the tree, reads this file, and calls `begin` with the programs that it tests; it then
# stands in a folder of its own. Its cases stand in parts, each after a line `part NAME`, and its last line is `finish WORDS`.
#
# For the tests of the suites themselves (tests/suites/run), from the environment:
#     PROGRAMS   the folder of the programs, in the place of target/bin
#     ORACLE     the folder of the oracle's program, in the place of tests/oracle/target/release
#     FEW        that many inputs by seed, and of every long list of cases the first and the last
#     AT_ONCE    a suite ends with its first failure
# A suite tells the programs that it starts in which part it is: PART.
set -u
top=$PWD
programs=$(realpath -m -- "${PROGRAMS:-target/bin}")
oracle=$(realpath -m -- "${ORACLE:-tests/oracle/target/release}")
export PART=${PART:-}

# build NAME..: these programs and the oracle are there
build() {
    local name
    for name in "$@"; do
        [ -n "${PROGRAMS:-}" ] || "$top/tools/build" program "$name"
        [ -x "$programs/$name" ] || { echo "the program $name is not built"; exit 1; }
    done
    [ -n "${ORACLE:-}" ] || cargo build --release --offline --quiet --manifest-path "$top/tests/oracle/Cargo.toml" || exit 1
}

# stay: for a suite without programs: what fails is kept in a folder that is gone when the suite has ended
stay() {
    folder=$(mktemp -d) || exit 1
    trap 'rm -rf "$folder"' EXIT
    : >"$folder/failures"
    tried=0 told=0 PART=
}

# begin NAME..: builds, and goes into that folder
begin() {
    build "$@"
    stay
    cd "$folder" || exit 1
}

# fail TEXT: the suite fails, whatever comes after. (A variable would be lost in a subshell, or set anew by a loop that uses its name.)
fail() {
    echo "failed, $PART: $1" | tee -a "$folder/failures"
    [ -z "${AT_ONCE:-}" ] || exit 1
}

# have COMMAND PACKAGE: the command is there, or Debian's package of it is installed; one suite at a time does so
have() {
    command -v "$1" >/dev/null && return
    (flock 9 && apt-get update && apt-get install -y "$2") 9>"${TMPDIR:-/tmp}/lemidrosy.installing" >"$folder/installed" 2>&1
    command -v "$1" >/dev/null && return
    fail "$1 is not there and cannot be installed (apt-get install $2): $(tail -n 3 "$folder/installed")"
    return 1
}

# part NAME: the cases of a part come next. One in which nothing was compared fails.
part() {
    [ -z "$PART" ] || [ "$told" -gt 0 ] || fail "nothing was compared"
    PART=$1 told=0
}

# finish WORDS: the last line of a suite
finish() {
    [ -n "$PART" ] || fail "there are no parts"
    part "$PART"
    [ ! -s "$folder/failures" ] || exit 1
    echo "$*"
    exit 0
}

# few WORD..: all of them, or of a list that is cut short the first and the last
few() {
    if [ -n "${FEW:-}" ]; then printf '%s\n' "$1" "${!#}"; else printf '%s\n' "$@"; fi
}

# span FIRST LAST: every number from the first to the last, or these two
span() {
    if [ -n "${FEW:-}" ]; then printf '%s\n' "$1" "$2"; else seq "$1" "$2"; fi
}

# many COUNT: this number, or a hundredth of it where lists are cut short
many() {
    if [ -n "${FEW:-}" ]; then echo $(($1 / 100)); else echo "$1"; fi
}

# byte NUMBER..: these bytes
byte() {
    local hex
    printf -v hex '\\x%02x' "$@"
    printf '%b' "$hex"
}

# expect COMMAND WORD..: what the oracle prints and says on standard error is expected
expect() {
    "$oracle/oracle" "$@" >expected 2>expected.errors || fail "the oracle ended with $?: $*"
}

# difference: the first line that is not as expected
difference() {
    LC_ALL=C awk '
        FILENAME == "expected" { want[FNR] = $0; n = FNR; next }
        FNR > n || want[FNR] != $0 { print "line " FNR ": expected \"" want[FNR] "\", got \"" $0 "\""; found = 1; exit }
        { seen = FNR }
        END { if (!found && seen < n) print "line " seen + 1 ": expected \"" want[seen + 1] "\", got nothing" }' expected got | head -c 600 | cat -v
    diff expected.errors errors | head -c 600 | cat -v
}

# same NAME STATUS: the program ended with this status, which must be 0, and what it printed (`got`) and said (`errors`) is as expected
same() {
    tried=$((tried + 1))
    if [ -s expected ] || [ -s expected.errors ]; then told=$((told + 1)); fi
    cmp -s expected got && cmp -s expected.errors errors && [ "$2" -eq 0 ] && return 0
    fail "differs: $1 (status $2)"
    difference
    return 1
}

# seeds COUNT COMMAND PROGRAM..: that many inputs by seed, on which this command of the oracle holds PROGRAM to it
seeds() {
    local count=${FEW:-$1} soak=$2
    shift 2
    if ! "$oracle/oracle" "$soak" "$count" 1 "$@" >said 2>&1 || ! grep -q "agree on $count " said; then fail "not held on $count seeds"; fi
    cat said
    told=$((told + count))
}

# says NAME WORDS COMMAND..: it ends, prints nothing, and says these words in one line on standard error
says() {
    local name=$1 words=$2 status
    shift 2
    tried=$((tried + 1)) told=$((told + 1))
    timeout 10 "$@" >got 2>errors
    status=$?
    if [ "$status" -eq 124 ] || [ -s got ] || [ "$(wc -l <errors)" -ne 1 ] || ! grep -qF -e "$words" errors; then
        fail "$name: it does not end, it prints, or it does not say \"$words\" in one line: $(head -c 200 errors)"
    fi
}

# unwritten NAME STATUS PROGRAM: with an output that cannot be written it ended, and said so in one line on standard error, with its name
unwritten() {
    tried=$((tried + 1)) told=$((told + 1))
    if [ "$2" -eq 124 ] || [ "$(wc -l <errors)" -ne 1 ] || ! grep -q "^${3##*/}: standard output" errors; then
        fail "$1: it does not end, or it does not say why in one line: $(head -c 200 errors)"
    fi
}

# says_full COMMAND..: an output that is full
says_full() {
    timeout 10 "$@" >/dev/full 2>errors
    unwritten "a full output" $? "$1"
}

# says_closed COMMAND..: an output that is closed
says_closed() {
    timeout 10 "$@" >&- 2>errors
    unwritten "a closed output" $? "$1"
}
