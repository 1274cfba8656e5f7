#!/usr/bin/env bash
# A log shows two people different entries. Each of them mirrors what he was shown, and sees nothing wrong; once the two mirrors
# are merged the fork is reported, and both signed notes are there as evidence. All of it in a folder of its own:
#
#     examples/find-a-fork.sh
set -Eeuo pipefail
trap 'echo "${0##*/}: line $LINENO: this does not hold" >&2' ERR
top=$(dirname "$(readlink -f "${BASH_SOURCE[0]}")")/..
program=$top/tlogmirror
work=$(mktemp -d)
trap 'rm -rf "$work"' EXIT
cd "$work"

# gives STATUS WORD..: runs the program, and fails where it does not end with that exit status.
gives() {
    local due=$1 status=0
    shift
    "$program" "$@" || status=$?
    if [ "$status" != "$due" ]; then
        echo "tlogmirror $1 ended with status $status, where $due is due" >&2
        exit 1
    fi
}

# size, root, hex FOLDER: of the checkpoint that this folder publishes, its size and its root in base64 and in hexadecimal.
size() { sed -n 2p "$1/checkpoint"; }
root() { sed -n 3p "$1/checkpoint"; }
hex() { root "$1" | base64 -d | od -An -v -tx1 | tr -d ' \n'; }

# same TEXT FILE: whether the file has just this text.
same() { printf '%s' "$1" | cmp - "$2"; }

printf 'hmac example.com/log 00000001 73656372657421\n' >keys
log=(--origin example.com/log --keys keys)

# The operator signs three logs under one name. All begin with the same 300 entries; "told-bob" has another entry behind them
# than "told-ann", and "told-eve" is as long as "told-ann" and differs in its last entry. "earlier" is Ann's log at 300 entries.
publish() { "$top/scripts/entries" | gives 0 build "${log[@]}" --dir "$1"; }
seq 300 | publish earlier
seq 500 | publish told-ann
{ seq 300; echo 'not for Ann'; seq 302 700; } | publish told-bob
{ seq 499; echo 'not for Ann'; } | publish told-eve

# Each mirrors what he was shown. There is no fork in any of the mirrors: the answer is empty, and the status 0.
for who in ann bob eve; do
    gives 0 pull "${log[@]}" --out "$who.state" dir "told-$who"
    gives 0 forks "${log[@]}" --state "$who.state" >none
    same '' none
done

# A log that has only grown is no fork either.
gives 0 pull "${log[@]}" --state ann.state --out grown.state dir earlier
gives 0 forks "${log[@]}" --state grown.state >none
same '' none

# Ann and Eve compare: two checkpoints of one size with different roots. The lesser root comes first in the line.
gives 0 merge "${log[@]}" --out both.state ann.state eve.state
gives 3 forks "${log[@]}" --state both.state | tee forks
if [[ $(hex told-ann) < $(hex told-eve) ]]; then first=ann second=eve; else first=eve second=ann; fi
same "fork 500 $(root "told-$first") 500 $(root "told-$second")"$'\n' forks

# The evidence: each signed note in a file of its own, as the operator signed it, byte for byte.
gives 0 notes "${log[@]}" --state both.state --dir evidence
ls evidence
[ "$(ls evidence | wc -l)" = 2 ]
cmp "evidence/500-$(hex told-ann)-0.note" told-ann/checkpoint
cmp "evidence/500-$(hex told-eve)-0.note" told-eve/checkpoint

# Nothing more is needed than Eve's checkpoint, as she got it, with the two partial tiles at the right edge of its tree: taken
# into Ann's mirror they show the same fork, without any of Eve's entries.
edge=(told-eve/tile/0/001.p/244 told-eve/tile/1/000.p/1)
gives 0 take "${log[@]}" --state ann.state --out sent.state head told-eve/checkpoint "${edge[@]}"
gives 3 forks "${log[@]}" --state sent.state | cmp - forks

# Ann and Bob compare: the sizes differ, and neither log begins with the other. The order of the merge makes no difference.
gives 0 merge "${log[@]}" --out ab.state ann.state bob.state
gives 0 merge "${log[@]}" --out ba.state bob.state ann.state
cmp ab.state ba.state
gives 3 forks "${log[@]}" --state ab.state | tee forks
same "fork 500 $(root told-ann) 700 $(root told-bob)"$'\n' forks
gives 0 notes "${log[@]}" --state ab.state --dir evidence-of-two
cmp "evidence-of-two/500-$(hex told-ann)-0.note" told-ann/checkpoint
cmp "evidence-of-two/700-$(hex told-bob)-0.note" told-bob/checkpoint

# Two notes of different sizes need a link: a proof that Bob's log had another root at 500 entries than Ann's note says.
gives 0 prove "${log[@]}" --state ab.state consistency 500 700 >proof
gives 0 check <proof >answer
same $'yes\n' answer
[ "$(sed -n 4,5p proof)" = "second 700"$'\n'"root $(root told-bob)" ]
[ "$(sed -n 2p proof)" = "first 500" ]
[ "$(sed -n 3p proof)" != "root $(root told-ann)" ]
echo "the forks were found, and the evidence is as it was signed"
