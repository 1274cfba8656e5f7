#!/usr/bin/env bash
# Mirrors a log whose checkpoints are signed by Ed25519, as those of public logs are: each is verified by another tool, then
# pinned, then pulled. The log is that of examples/log, at 12 entries and then at 20. All of it in a folder of its own:
#
#     examples/pin-a-checkpoint.sh
set -Eeuo pipefail
trap 'echo "${0##*/}: line $LINENO: this does not hold" >&2' ERR
top=$(dirname "$(readlink -f "${BASH_SOURCE[0]}")")/..
program=$top/tlogmirror
work=$(mktemp -d)
trap 'rm -rf "$work"' EXIT
cd "$work"

# gives STATUS WORD..: runs the program, and fails where it does not end with that exit status.
gives() {
    local due=$1 status=0
    shift
    "$program" "$@" || status=$?
    if [ "$status" != "$due" ]; then
        echo "tlogmirror $1 ended with status $status, where $due is due" >&2
        exit 1
    fi
}

# refused NAME WORD..: runs the program, and fails where it is not refused by the fault of this name.
refused() {
    local name=$1 status=0
    shift
    "$program" "$@" 2>fault || status=$?
    if [ "$status" != 1 ] || [ "$(tail -n 1 fault)" != "tlogmirror: $name" ]; then
        echo "tlogmirror $1 ended with status $status, where it is to be refused by $name" >&2
        exit 1
    fi
}

# verified FILE: verifies the signature by the log's public key, where openssl is there to do it. Any tool for signed notes does.
verified() {
    if openssl version 2>/dev/null | grep -q 'OpenSSL [3-9]'; then
        "$top/operate/verify-checkpoint" "$top/examples/log.vkey" <"$1"
    else
        echo "there is no openssl 3 here, so no signature is verified" >&2
        return "${2:-0}"
    fi
}

# The log as it is published today, with 20 entries, and as it was with 12.
cp -r "$top/examples/log" today
cp -r "$top/examples/log" before
cp "$top/examples/log.checkpoint-12" before/checkpoint
: >keys
log=(--origin example.com/log --keys keys)

# The program knows no Ed25519. Without a pin no checkpoint of this log is taken, and no state is written.
refused NoTrustedSignature pull "${log[@]}" --out log.state dir before
[ ! -e log.state ]

# The first checkpoint: verified, pinned, pulled.
verified before/checkpoint
"$top/operate/pin" example.com/log <before/checkpoint | tee -a keys
gives 0 pull "${log[@]}" --out log.state dir before
gives 0 status "${log[@]}" --state log.state

# A pin is good for one text. The log has grown since, so its new checkpoint is verified and pinned in its turn.
refused NoTrustedSignature pull "${log[@]}" --state log.state --out log.state dir today
verified today/checkpoint
"$top/operate/pin" example.com/log <today/checkpoint | tee -a keys
gives 0 pull "${log[@]}" --state log.state --out log.state dir today
gives 0 status "${log[@]}" --state log.state

# These are the lines of examples/log.keys, in the other order.
LC_ALL=C sort keys | cmp - <(LC_ALL=C sort "$top/examples/log.keys")

# The mirror gives the checkpoint back as it was signed.
gives 0 export "${log[@]}" --state log.state --dir copy
cmp copy/checkpoint today/checkpoint
cmp copy/tile/entries/000.p/20 today/tile/entries/000.p/20

# A checkpoint that says something else is refused, whoever signed it.
cp -r today false
sed '2s/20/21/' today/checkpoint >false/checkpoint
refused NoTrustedSignature pull "${log[@]}" --state log.state --out log.state dir false
if verified false/checkpoint 1 2>unverified; then exit 1; fi

# The old lines are kept: a state is not loaded without the pin of each checkpoint in it.
tail -n 1 keys >last
refused StateHead status --origin example.com/log --keys last --state log.state
echo "both checkpoints were pinned and mirrored"
