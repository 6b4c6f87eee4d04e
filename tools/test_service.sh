#!/usr/bin/env bash
# test_service.sh [LIBRARY], at the top of the repository: the service of clients/python/cedar_server, on the shared object in
# crates/cedar_c/out/cedar (tools/archive.py makes it), or on one that is given.
#
# What JSON says too much, or not at all, is refused with its place; calls over HTTP are answered, and refused, by several processes; slow clients,
# requests that are cut off, 1,000 connections. Copies over a PostgreSQL server on loopback: 10,000 questions by 32 clients with edits between, each
# answer that of a session of its own at its position; a process is killed in the middle of edits, the database ended, restored from an older backup,
# full, or silent, replies of the service cut behind each byte. Three copies behind haproxy, as tools/three_copies.py starts them; the page, in
# Chromium; and what docs/SERVICE.md shows.
# Says what it left out for want of packages, and ends with status 1 where anything fails, or takes more than SECONDS_OF_SERVICE (600). Nothing that it
# began is there when it ends, nor a file of it; and all of it speaks on loopback alone.
set -u
library=$(realpath "${1:-crates/cedar_c/out/cedar/lib/libcedar.so}")
seconds=${SECONDS_OF_SERVICE:-600}
# In memory, where there is room for databases.
has_room() { [ -w "$1" ] && [ "$(df --output=avail -k "$1" | tail -n 1)" -gt 2000000 ]; }
if has_room /dev/shm; then room=$(mktemp -d -p /dev/shm); else room=$(mktemp -d); fi
# (the account of a database's server gets through)
chmod 711 "$room"
running=()
ends() {
    [ ${#running[@]} -eq 0 ] || kill "${running[@]}" 2> "$room/found"
    wait
    rm -rf "$room"
}
trap ends EXIT
trap 'exit 143' TERM INT HUP
export TMPDIR="$room" CEDAR_PORTS="$room" CEDAR_LIBRARY="$library"
unset http_proxy https_proxy all_proxy HTTP_PROXY HTTPS_PROXY ALL_PROXY

left_out() {
    echo "left out, for want of $1: $2"
}

[ -f "$library" ] || { echo "$library isn't there: python3 tools/archive.py makes it" && exit 1; }
# One that has the packages, where there is one.
python=
for it in python3 /usr/bin/python3; do
    if "$it" -c 'import gunicorn, httptools, psycopg, starlette, uvicorn.workers' 2> /dev/null; then
        python=$it
        break
    fi
done
[ -n "$python" ] || { left_out 'starlette, uvicorn, httptools, gunicorn or psycopg 3' 'the service' && exit 0; }

parts=('test_reading test_quick test_points test_whole' 'test_calls' 'test_processes')
if (cd clients/python && "$python" -B -c 'import tests.postgres as it; raise SystemExit(not it.tools())'); then
    parts+=('test_copies' 'test_outages.Outages' 'test_outages.Cuts' 'test_many' 'test_planted')
    if command -v haproxy > "$room/found"; then parts+=('test_three' 'test_page'); else left_out haproxy 'three copies behind it'; fi
else
    left_out PostgreSQL 'copies'
fi
if "$python" -c 'import selenium' 2> /dev/null && command -v chromium chromedriver > "$room/found"; then
    parts+=('test_browser')
else
    left_out 'chromium, its driver or selenium' 'the page'
fi
if command -v mypy > "$room/found"; then
    (cd clients/python && timeout -k 10 "$seconds" mypy --strict --cache-dir "$room/mypy" cedar_server) || exit 1
else
    left_out mypy 'types of the service'
fi

# Side by side, each part with a server of its own.
for part in "${parts[@]}"; do
    # shellcheck disable=SC2086
    (cd clients/python && exec python3 ../../tools/bounded.py "$seconds" "$python" -B -m unittest -q ${part//test_/tests_server.test_}) \
        > "$room/${#running[@]}" 2>&1 &
    running+=($!)
done
failed=0
for at in "${!running[@]}"; do
    if wait "${running[$at]}"; then
        echo "fine: ${parts[$at]}"
        grep -E 'questions at|^left out' "$room/$at"
    else
        failed=$((failed + 1))
        echo "FAILED: ${parts[$at]}"
        tail -n 40 "$room/$at"
    fi
    unset "running[$at]"
done
echo "$((${#parts[@]} - failed)) passed, $failed failed"
[ $failed -eq 0 ]
