#!/usr/bin/env bash
# What a reader has to trust beside the prover: the proofs that are written whole by hand, which set what only clauses see (docs/PROOF.md says what they
# do), are these four, and no code of the product is unsafe or foreign.
set -u
cd "$(dirname "$0")/.."
status=0
by_hand='crates/base_file/proofs/log/Log/new/Proof.antt
crates/base_file/proofs/log/Log/note/Proof.antt
crates/float_sum/proofs/added/Added/new/Proof.antt
crates/float_sum/proofs/added/Added/note/Proof.antt'
found=$(find crates -name Proof.antt | LC_ALL=C sort)
if [ "$found" != "$by_hand" ]; then
    printf 'other proofs are written by hand than tests/by_hand.sh and docs/PROOF.md say:\n%s\n' "$(diff <(echo "$by_hand") <(echo "$found"))"
    status=1
fi
unproved=$(grep -rnE '(^|[^A-Za-z_"`])unsafe([^A-Za-z_]|$)|(^|[^A-Za-z_])extern([^A-Za-z_]|$)' crates/*/src --include='*.rt' | grep -vE ':[0-9]+: *//')
if [ -n "$unproved" ]; then
    printf 'code that no proof covers:\n%s\n' "$unproved"
    status=1
fi
[ "$status" != 0 ] || echo "by hand: four proofs, and no unsafe or foreign code"
exit "$status"
