#!/usr/bin/env bash
# A log is followed into a folder, from two places, neither of them whole, and a monitor reads what is new. Then the operator shows
# somebody another log, and the fork's evidence is left for anyone to check. All of it in a folder of its own:
#
#     examples/follow-a-log.sh
set -Eeuo pipefail
trap 'echo "${0##*/}: line $LINENO: this does not hold" >&2' ERR
top=$(dirname "$(readlink -f "${BASH_SOURCE[0]}")")/..
program=$top/tlogmirror
work=$(mktemp -d)
trap 'rm -rf "$work"' EXIT
cd "$work"

# gives STATUS WORD..: runs the program, and fails where it does not end with that exit status.
gives() {
    local due=$1 status=0
    shift
    "$program" "$@" || status=$?
    if [ "$status" != "$due" ]; then
        echo "tlogmirror $1 ended with status $status, where $due is due" >&2
        exit 1
    fi
}

# root, hex FOLDER: the root of the checkpoint that this folder publishes, in base64 and in hexadecimal.
root() { sed -n 3p "$1/checkpoint"; }
hex() { root "$1" | base64 -d | od -An -v -tx1 | tr -d ' \n'; }

# same TEXT FILE: whether the file has just this text.
same() { printf '%s' "$1" | cmp - "$2"; }

printf 'hmac example.com/log 00000001 73656372657421\n' >keys
log=(--origin example.com/log --keys keys)

# The operator's log at 1,000 and at 1,500 entries, and another one of 1,200.
publish() { "$top/scripts/entries" | gives 0 build "${log[@]}" --dir "$1"; }
seq 1000 | publish then
seq 1500 | publish now
{ seq 999; echo another; seq 1001 1200; } | publish another

# A first copy: it has the log's own files.
gives 0 follow "${log[@]}" --dir copy dir then | tee said
same "followed 1000 $(root then) from 0"$'\n' said
diff -r then copy

# Two places have the newer log. Each has a bundle that is false or gone, and together they have all.
cp -r now first && head -c 512 /dev/zero >first/tile/entries/004
cp -r now second && rm second/tile/entries/005.p/220
gives 0 follow "${log[@]}" --dir copy dir first dir second | tee said
same "followed 1500 $(root now) from 1000"$'\n' said
gives 0 audit "${log[@]}" dir copy | tee said
same "audited 1500 $(root now)"$'\n' said

# What is new, as a monitor reads it: each entry a line in base64.
gives 0 entries "${log[@]}" --dir copy --base64 1000 1500 | base64 -d >new
seq 1001 1500 | tr -d '\n' | cmp - new

# Proofs are made of the copy, and hold.
gives 0 prove "${log[@]}" --dir copy consistency 1000 1500 >proof
gives 0 check <proof >answer
same $'yes\n' answer

# A place shows the other log. The copy keeps its side, and nothing is written into it.
cp -r copy before
gives 3 follow "${log[@]}" --dir copy --forks forks dir another | tee said
same "followed 1500 $(root now) from 1500"$'\n'"fork 1200 $(root another) 1500 $(root now)"$'\n' said
diff -r before copy

# The evidence: both signed notes, and a proof that the log of 1,500 entries had another root at 1,200.
cmp "forks/1200-$(hex another)-0.note" another/checkpoint
cmp "forks/1500-$(hex now)-0.note" now/checkpoint
proof=forks/1200-$(hex another)-1500-$(hex now).proof
gives 0 check <"$proof" >answer
same $'yes\n' answer
[ "$(sed -n 2p "$proof")" = "first 1200" ]
[ "$(sed -n 3p "$proof")" != "root $(root another)" ]
[ "$(sed -n 4,5p "$proof")" = "second 1500"$'\n'"root $(root now)" ]
echo "the copy is whole, and the evidence of the fork is as it was signed"
