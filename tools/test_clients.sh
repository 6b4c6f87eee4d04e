#!/usr/bin/env bash
# test_clients.sh [FOLDER [PROGRAM]], at the top of the repository: the examples in C, the clients in Python and Rust and what docs/C.md and
# docs/CLIENTS.md show, on the library in crates/cedar_c/out/cedar (tools/archive.py makes it) and the program, or on those that are given.
#
# Through a handle all sessions of crates/cedar_main/cases are answered as by the program, also with requests for memory refused, under valgrind
# without a bad access or a leak. What a caller does wrong is a status, also under valgrind, and by several threads under helgrind. Threads with
# the stack that cedar.h tells hold the deepest texts, and take no more of it. The client in Python reads back random values, and
# is installed without a network; copies answer alike over a PostgreSQL server on loopback that is cut off, ended, killed and restored, and tests
# see each fault that is planted into them.
# Says what it left out for want of cc, c++, pkg-config, python3, cargo, valgrind, mypy or PostgreSQL, and ends with status 1 where anything fails.
set -u
folder=$(realpath "${1:-crates/cedar_c/out/cedar}")
program=$(realpath "${2:-crates/cedar_main/out/cedar_main}")
room=$(mktemp -d)
trap 'rm -rf "$room"' EXIT
failed=0 passed=0

has() {
    command -v "$1" > "$room/found" && return
    echo "left out, for want of $1: $2"
    return 1
}

# Tries a command, and shows what it wrote where it fails.
try() {
    local what=$1
    shift
    if "$@" > "$room/said" 2>&1; then
        passed=$((passed + 1))
        echo "fine: $what"
    else
        failed=$((failed + 1))
        echo "FAILED: $what"
        tail -n 30 "$room/said"
    fi
}

# What hangs is a failure, and not the end of a gate's time.
limited() {
    timeout -k 10 "${SECONDS_OF_A_PART:-600}" "$@"
}

# The text of the Nth block of a page that is of this language, or of none.
block() {
    awk -v nth="$2" -v head="\`\`\`${3:-}" '/^```/ { if (inside) { inside = on = 0 } else { inside = 1; on = $0 == head && ++n == nth } next } on' "$1"
}

strictly() {
    "$1" -std="$2" -Wall -Wextra -Wpedantic -Werror -O1 -pthread -I"$folder/include" "${@:3}"
}

link() {
    strictly cc c11 "crates/cedar_c/examples/$1.c" "$folder/lib/libcedar.a" "${@:2}" -o "$room/$1"
}

# What the header declares, and nothing else; the name by which programs ask for it has the number of the version.
shared_object() {
    local library="$folder/lib/libcedar.so" version
    sed -n 's/^CEDAR_API .*\b\(cedar_[a-z_]*\)(.*/\1/p' crates/cedar_c/include/cedar.h | sort > "$room/declared"
    [ -s "$room/declared" ] && cmp crates/cedar_c/include/cedar.h "$folder/include/cedar.h" || return 1
    nm -D --defined-only "$library" | awk '$2 == "T" { sub("@.*", "", $3); print $3 }' | sort | diff "$room/declared" - || return 1
    version=$(sed -n 's/^#define CEDAR_VERSION "\([0-9]*\).*/\1/p' crates/cedar_c/include/cedar.h)
    readelf -d "$library" | grep -F "[libcedar.so.$version]"
}

exports_of_archive() {
    nm -g --defined-only "$folder/lib/libcedar.a" | awk 'NF == 3 { print $3 }' | sort | diff "$room/declared" -
}

# The header's numbers are those of its version, of which the clients are; they have its highest limit of depth.
versions() {
    local it
    it=$(sed -n 's/^#define CEDAR_VERSION_M[AI][JN]OR //p' crates/cedar_c/include/cedar.h | paste -s -d .)
    grep "^#define CEDAR_VERSION \"$it\\." crates/cedar_c/include/cedar.h || return 1
    it=$(sed -n 's/^#define CEDAR_VERSION "\(.*\)"$/\1/p' crates/cedar_c/include/cedar.h)
    grep -x "version = \"$it\"" clients/python/pyproject.toml && grep -x "version = \"$it\"" clients/rust/Cargo.toml || return 1
    grep -x "_VERSION = \"${it%.*}.\"" clients/python/cedar_session/session.py && grep -x "const VERSION: &str = \"${it%.*}.\";" clients/rust/src/session.rs || return 1
    it=$(sed -n 's/^#define CEDAR_DEPTH_MAX //p' crates/cedar_c/include/cedar.h)
    grep -x "DEPTH_MAX = $it" clients/python/cedar_session/session.py && grep -x "pub const DEPTH_MAX: u32 = $it;" clients/rust/src/session.rs
}

by_pkg_config() {
    # shellcheck disable=SC2046
    cc -o "$room/by_pkg_config" crates/cedar_c/examples/ask.c $(PKG_CONFIG_PATH="$folder/lib/pkgconfig" pkg-config --cflags --libs cedar) || return 1
    LD_LIBRARY_PATH="$folder/lib" "$room/by_pkg_config" | diff "$room/asked" -
}

as_cplusplus() {
    printf '#include <cedar.h>\nint main() { cedar_session it = CEDAR_CLOSED; return cedar_open(&it, CEDAR_DEPTH) || cedar_close(&it); }\n' > "$room/it.cc"
    strictly c++ c++11 "$room/it.cc" "$folder/lib/libcedar.a" -o "$room/cplusplus" && "$room/cplusplus"
}

# The program that the page begins with, and what it writes.
page() {
    block docs/C.md 1 c > "$room/page.c" && [ -s "$room/page.c" ] && strictly cc c11 "$room/page.c" "$folder/lib/libcedar.a" -o "$room/page" || return 1
    "$room/page" > "$room/written" && block docs/C.md 1 | diff - "$room/written"
}

ask() {
    "$room/ask" > "$room/asked"
    block docs/C.md 2 | diff - "$room/asked"
}

serves() {
    printf '%s\n' 'put [{uid: User::"alice", parents: [Group::"staff"]}]' \
        'load permit(principal in Group::"staff", action, resource) when { context.hour < 18 };' \
        'ask {principal: User::"alice", context: {hour: 9}}' 'ask {principal: User::"alice"}' 'tell {context: {hour: 19}}' lode load 'ask 1' > "$room/lines"
    printf '%s\n' ok 'ok ["policy0"]' 'allow must=["policy0"] may=["policy0"] erring=[]' 'open must=[] may=["policy0"] erring=[]' \
        'deny must=[] may=[] erring=[]' 'no command' 'ok []' 'refused Shape' > "$room/wanted"
    "$@" "$room/serve" < "$room/lines" > "$room/served" && diff "$room/wanted" "$room/served"
}

# Why a session would refuse each of these commands, which it does behind that.
whys() {
    "$@" "$room/why" < crates/cedar_c/examples/why.stdin > "$room/whys" && diff crates/cedar_c/examples/why.stdout "$room/whys"
}

# What JSON is answered, and why it is none.
jsons() {
    "$@" "$room/json" < crates/cedar_c/examples/json.stdin > "$room/jsons" && diff crates/cedar_c/examples/json.stdout "$room/jsons"
}

costs() {
    "$room/cost" handle 100 && "$room/cost" run 100
}

# The deepest texts take no more of the stack than cedar.h tells, and threads that have so much hold them.
stacks() {
    local limit
    "$room/stack" || return 1
    for limit in 8 16 32 64 128 256 1024; do
        "$room/stack" "$limit" || return 1
    done
}

# (with names no other cases than these are run)
typed_sessions() {
    local names
    names=$(find crates/cedar_cli/sessions -name '*.stdin' -printf '%f\n' | sed 's/\.stdin$//')
    # shellcheck disable=SC2086
    [ -n "$names" ] && limited python3 tools/cases.py --cli "$room/frames" $names
}

misuse() {
    "$@" "$room/misuse" && "$@" "$room/misuse" threads && "$@" "$room/misuse_json"
}

memcheck() {
    limited valgrind -q --leak-check=full --show-leak-kinds=all --error-exitcode=99 --main-stacksize=33554432 "$@"
}

# One session without a bad access or a leak, and with the lines that the program writes.
clean_session() {
    local written
    written=$(mktemp -p "$room")
    memcheck "$room/frames" "${@:2}" < "$1" > "$written"
    [ $? -ne 99 ] && diff "${1%.stdin}.stdout" "$written" && return
    echo "$1"
    return 1
}

under_valgrind() {
    export -f clean_session memcheck limited
    export room
    # shellcheck disable=SC2016
    find crates/cedar_main/cases -name '*.stdin' -size -20001c -print0 | xargs -0 -P "$(nproc)" -n 1 bash -c 'clean_session "$1"' '' || return 1
    clean_session crates/cedar_cli/sessions/ip-on-literals.stdin session || return 1
    serves memcheck && whys memcheck && jsons memcheck
}

# One with psycopg, where there is one.
python=python3
for it in python3 /usr/bin/python3; do
    if "$it" -c 'import psycopg' 2> /dev/null; then
        python=$it
        break
    fi
done

python_tests() {
    (cd clients/python && PATH="$room/bin:$PATH" CEDAR_LIBRARY="$folder/lib/libcedar.so" limited "$python" -B -m unittest -q "${@/#/tests.}")
}

# Without a network, and nothing is left in the sources; with the shared object inside nothing has to name it.
is_installed() {
    local before
    before=$(git status --short --ignored clients)
    "$python" -m pip --disable-pip-version-check wheel -q --no-index --config-settings "library=$folder/lib/libcedar.so" -w "$room/wheels" clients/python || return 1
    "$python" -m pip --disable-pip-version-check install -q --no-index --target "$room/site" "$room"/wheels/*.whl || return 1
    (cd "$room" && PYTHONPATH="$room/site" "$python" -B -c 'import cedar_session; print(cedar_session.Session().load(""))') || return 1
    [ "$before" = "$(git status --short --ignored clients)" ]
}

types() {
    (cd clients/python && mypy --strict --cache-dir "$room/mypy" cedar_session wheels.py)
}

has_postgres() {
    (cd clients/python && "$python" -B -c 'import psycopg, tests.postgres as it; raise SystemExit(not it.tools())') 2> /dev/null && return
    echo 'left out, for want of PostgreSQL, or of psycopg 3: copies'
    return 1
}

# Side by side, each part with a server of its own.
copies() {
    local part at=0 status=0 running=()
    for part in 'test_copies test_pages.Copied' test_outages.{CutEdits,CutReads,Many} 'test_logs test_outages.Restarts'; do
        # shellcheck disable=SC2086
        python_tests $part > "$room/part.$at" 2>&1 &
        running+=($!) at=$((at + 1))
    done
    for part in "${running[@]}"; do wait "$part" || status=1; done
    cat "$room"/part.*
    return $status
}

rust_tests() {
    CEDAR_ARCHIVE="$folder/lib/libcedar.a" RUSTFLAGS='-D warnings' \
        limited cargo test -q --offline --manifest-path clients/rust/Cargo.toml --target-dir "$room/target"
}

[ -f "$folder/lib/libcedar.a" ] || { echo "$folder isn't there: python3 tools/archive.py makes it" && exit 1; }
mkdir "$room/bin" && ln -s "$program" "$room/bin/cedar_session"

if has cc 'the examples in C, and all that needs the shared object'; then
    try 'a shared object exports what the header declares' shared_object
    try 'the archive exports it too, and nothing else' exports_of_archive
    try 'the clients are of the version of the header' versions
    for example in ask serve why json frames stack cost; do try "$example.c is compiled" link "$example"; done
    try 'misuse.c is compiled' link misuse -Wl,--wrap=malloc
    try 'misuse_json.c is compiled' link misuse_json
    try 'docs/C.md begins with a program, and shows what it writes' page
    try 'ask.c writes what docs/C.md shows' ask
    has pkg-config 'ask.c by pkg-config' && try 'ask.c by pkg-config, over the shared object' by_pkg_config
    has c++ 'the header in C++' && try 'the header in C++' as_cplusplus
    try 'serve.c answers a line each' serves
    try 'why.c says why a command is refused' whys
    try 'json.c answers JSON, and says why it is none' jsons
    try 'cost.c is answered' costs
    try 'what a caller does wrong is a status' misuse limited
    try 'threads with the stacks of cedar.h hold the deepest texts' stacks
    if has python3 'the sessions by a handle, and the client in Python'; then
        try 'sessions by a handle' limited python3 tools/cases.py --program "$room/frames"
        try "sessions by a handle that knows Cedar's extension types" typed_sessions
        try 'sessions by a handle, with requests for memory refused' limited python3 tools/refuse_growths.py --program "$room/frames" --seconds "${SECONDS_OF_REFUSING:-30}"
        try 'values in Python are read back' python_tests test_values
        try 'what copies hold' python_tests test_held
        if "$python" -m pip --version > /dev/null 2>&1; then
            try 'the client in Python is installed' is_installed
        else
            echo 'left out, for want of pip: the client in Python is installed'
        fi
        has mypy 'types of the client in Python' && try 'types of the client in Python' types
        if [ -x "$program" ]; then
            try 'the client in Python' python_tests test_cedar test_lines
            try 'what docs/CLIENTS.md shows' python_tests test_pages.First test_pages.Child test_pages.Connections test_pages.Service && grep µs "$room/said"
            has socat 'a session for each connection, by socat' && try 'a session for each connection, by socat' python_tests test_pages.Socat
            if has_postgres; then
                try 'copies over PostgreSQL' copies && grep 'edits and' "$room/said"
                try 'faults that are planted into copies are seen' python_tests test_planted
            fi
        else
            echo "left out, for want of $program: the program as a child, a session for each connection, copies"
        fi
    fi
    if has valgrind 'bad accesses and leaks, races of threads'; then
        try 'sessions by a handle under valgrind' under_valgrind
        try 'what a caller does wrong, under valgrind' misuse memcheck
        try 'several threads at one handle, under helgrind' limited valgrind -q --tool=helgrind --error-exitcode=99 "$room/misuse" threads
    fi
    has cargo 'the client in Rust' && try 'the client in Rust' rust_tests
fi
echo "$passed passed, $failed failed"
[ $failed -eq 0 ]
