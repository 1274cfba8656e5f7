#!/usr/bin/env bash
# Makes a log of 1,000 entries, mirrors it from its files, serves the mirror, and mirrors that over HTTP; then both
# mirrors and their files are the same, byte for byte. All of it in a folder of its own:
#
#     examples/mirror-a-log.sh
set -Eeuo pipefail
trap 'echo "${0##*/}: line $LINENO: this does not hold" >&2' ERR
top=$(dirname "$(readlink -f "${BASH_SOURCE[0]}")")/..
program=$top/tlogmirror
work=$(mktemp -d)
server=
trap 'if [ -n "$server" ]; then kill "$server" 2>/dev/null || true; fi; rm -rf "$work"' EXIT
cd "$work"

# The words that most commands share: the log's origin, and the file of its keys.
printf 'hmac example.com/log 00000001 73656372657421\n' >keys
log=(--origin example.com/log --keys keys)

# A log of the entries "entry 1" to "entry 1000": a checkpoint, tiles of 256 hashes, and bundles of 256 entries.
seq -f 'entry %.0f' 1000 | "$top/scripts/entries" | "$program" build "${log[@]}" --dir log
find log -type f | LC_ALL=C sort

# What it publishes is fetched into a mirror, which is kept in one file.
"$program" pull "${log[@]}" --out first.state dir log
"$program" status "${log[@]}" --state first.state

# The mirror gives back the same files.
"$program" export "${log[@]}" --state first.state --dir copy
diff -r log copy
echo "the copy is the log"

# It is served on this machine, at the first of some ports that is free. The server ends by itself after 7 requests, which
# is what a pull makes: the checkpoint, two tiles of the right edge, and four bundles. It needs no other tile.
for port in 2{1..9}{113,557,891}; do
    timeout 60 "$program" serve "${log[@]}" --state first.state --port "$port" --requests 7 >served 2>refused &
    server=$!
    until grep -q listening served || ! kill -0 "$server" 2>/dev/null; do sleep 0.05; done
    if grep -q listening served; then break; fi
done
cat served

# A second mirror pulls from the first one. It comes to the same state, and gives back the same files.
"$program" pull "${log[@]}" --out second.state http "127.0.0.1:$port"
wait "$server"
server=
cmp first.state second.state
"$program" export "${log[@]}" --state second.state --dir again
diff -r log again
echo "the second mirror is the first"

# A proof that entry 999 of the first 1,000 is what it is, and whether it holds.
"$program" prove "${log[@]}" --state second.state inclusion 1000 999 >proof
cat proof
"$program" check <proof
