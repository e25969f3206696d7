#!/bin/sh
# Memory that is refused: each command is run once for each of its allocations, which fails in that run. The status has to be 7, with a front of
# the output that it has with all its memory, and with the line `no memory` or without a line; or all comes as with all its memory, where the program
# asked again for less, as it does once for its arguments. Of the made program, which has some 18,000 allocations, each 500th is refused. It needs
# rustc and a dynamic C library, and is no part of the gate. With VCP=FILE before it another program than the built one is tried.
top=$(CDPATH='' cd -- "$(dirname -- "$0")/.." && pwd) || exit 1
vcp=${VCP:-$top/crates/vcp/out/vcp}
[ -x "$vcp" ] || {
    echo "failing_memory: no program is built; ./vcp builds it"
    exit 1
}
work=$(mktemp -d) || exit 1
trap 'rm -rf "$work"' EXIT
rustc --edition 2024 --crate-type cdylib -O -o "$work/failing.so" "$top/checks/failing_memory.rs" || exit 1
cd "$work" || exit 1
cp "$top/examples/add.st" p.st && cp "$top/examples/in.csv" in.csv || exit 1
cp "$top/examples/crossing.st" "$top/examples/crossing.csv" . || exit 1
"$vcp" compile p.st --seed 0 >m.img || exit 1
"$vcp" compile crossing.st >crossing.img || exit 1
printf 'operand 0 2 0 add 2147483647\nskip 1 2\n' >f.txt
printf 'PROGRAM p\nVAR_INPUT x : DINT; END_VAR\nVAR_OUTPUT y : DINT; END_VAR\nLD x\nADD 1\nST y\nEND_PROGRAM\n' >p.il
printf 'wire 2 1 2 0 1\ncycle 0 0\ndeliver 1 0 0\n' >w.wire
printf 'x\n5\nz\n' >bad.csv
echo 'PROGRAM p y := END_PROGRAM' >bad.st

# Runs a command once for each of its allocations, or for each so-and-so-many-th.
step=1
refuse_each() {
    "$vcp" "$@" >whole 2>told
    wanted=$?
    number=$((1 - step))
    tried=-1
    again=0
    while :; do
        number=$((number + step))
        tried=$((tried + 1))
        : >mark
        FAIL_ALLOC=$number LD_PRELOAD=$work/failing.so "$vcp" "$@" >out 2>err 9>mark
        status=$?
        [ -s mark ] || break
        # what was asked for again, smaller, isn't lacking
        if [ "$status" -eq "$wanted" ] && cmp -s out whole && cmp -s err told; then
            again=$((again + 1))
        elif [ "$status" -ne 7 ] || ! head -c "$(wc -c <out)" whole | cmp -s - out || { [ -s err ] && [ "$(cat err)" != 'no memory' ]; }; then
            echo "vcp $*: status $status where allocation $number fails: $(head -n 1 err)"
            failed=1
        fi
    done
    if [ "$status" -ne "$wanted" ] || ! cmp -s out whole; then
        echo "vcp $*: status $status where no allocation fails, in place of $wanted"
        failed=1
    fi
    echo "vcp $*: $tried allocations refused, of which $again were asked for again"
}

failed=0
refuse_each check p.st
refuse_each format crossing.st
refuse_each plain p.st in.csv
refuse_each run p.st in.csv
refuse_each run crossing.st crossing.csv
refuse_each compile crossing.st
refuse_each list m.img
refuse_each exec m.img in.csv
refuse_each trace m.img in.csv 0
refuse_each inject m.img in.csv f.txt
refuse_each audit m.img 1
refuse_each audit crossing.img 3
refuse_each widen m.img
refuse_each il p.il in.csv
refuse_each pair m.img in.csv 7
refuse_each pairs m.img in.csv 7 f.txt
refuse_each wire w.wire
step=500
refuse_each demo 7
step=1
refuse_each check bad.st
refuse_each run p.st bad.csv
refuse_each exec m.img bad.csv
exit "$failed"
