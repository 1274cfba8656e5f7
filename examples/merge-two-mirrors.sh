#!/usr/bin/env bash
# Two mirrors that each got only a part of a log are merged: neither is complete, together they are. The order of the merge
# makes no difference. All of it in a folder of its own:
#
#     examples/merge-two-mirrors.sh
set -Eeuo pipefail
trap 'echo "${0##*/}: line $LINENO: this does not hold" >&2' ERR
top=$(dirname "$(readlink -f "${BASH_SOURCE[0]}")")/..
program=$top/tlogmirror
work=$(mktemp -d)
trap 'rm -rf "$work"' EXIT
cd "$work"

# gives STATUS WORD..: runs the program, and fails where it does not end with that exit status.
gives() {
    local due=$1 status=0
    shift
    "$program" "$@" || status=$?
    if [ "$status" != "$due" ]; then
        echo "tlogmirror $1 ended with status $status, where $due is due" >&2
        exit 1
    fi
}

printf 'hmac example.com/log 00000001 73656372657421\n' >keys
log=(--origin example.com/log --keys keys)
seq -f 'entry %.0f' 1000 | "$top/scripts/entries" | gives 0 build "${log[@]}" --dir log

# Two places publish that log, and each has lost some of its files: one the entries from 0 to 511, the other those behind.
cp -r log late
rm late/tile/entries/000 late/tile/0/000 late/tile/entries/001 late/tile/0/001
cp -r log early
rm early/tile/entries/002 early/tile/0/002
rm -r early/tile/entries/003.p

# A mirror of each is partial: a pull that did not get everything ends with status 3, and keeps what it got.
gives 3 pull "${log[@]}" --out a.state dir late
gives 3 pull "${log[@]}" --out b.state dir early
gives 3 status "${log[@]}" --state a.state

# What each of them lacks, by the size and the root in the checkpoint.
head=(--size "$(sed -n 2p log/checkpoint)" --root "$(sed -n 3p log/checkpoint)")
gives 3 missing "${log[@]}" --state a.state "${head[@]}" | tee a.missing
gives 3 missing "${log[@]}" --state b.state "${head[@]}" | tee b.missing

# Merged, either way round, they are complete, and the same bytes; so are they merged once more.
gives 0 merge "${log[@]}" --out ab.state a.state b.state
gives 0 merge "${log[@]}" --out ba.state b.state a.state
cmp ab.state ba.state
gives 0 merge "${log[@]}" --out abb.state ab.state b.state
cmp ab.state abb.state
gives 0 status "${log[@]}" --state ab.state
gives 0 missing "${log[@]}" --state ab.state "${head[@]}"

# Nothing shows any more that it came in parts: it is the mirror of the whole log, and its files are the log's.
gives 0 pull "${log[@]}" --out whole.state dir log
cmp ab.state whole.state
gives 0 export "${log[@]}" --state ab.state --dir copy
diff -r log copy
echo "the merged mirror is the log"
