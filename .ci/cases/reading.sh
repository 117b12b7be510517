# The commands `recover` and `dump`, the texts beside those of another reader, and how they are written.

recover_cases() {
    on_file "$examples/genesis.log" recover
    expect 'genesis log' 0 "$genesis_text" ''

    on_file "$examples/one_transfer.log" recover
    expect 'one transfer' 0 $'lsn 9\n0 70\n1 30\n' ''
    on_file "$examples/unfinished_transfer.log" recover
    expect 'an unfinished transfer' 0 $'lsn 8\n0 100\n1 0\n' ''
    on_file "$examples/greatest_transaction.log" recover
    expect 'the greatest transaction' 0 $'lsn 5\n0 100\n1 0\n' ''
    on_file "$examples/wide_balances.log" recover
    expect 'wide balances' 0 $'lsn 10\n0 9007199254740993\n1 4611686018427387903\n' ''
    { head -c 20 "$examples/one_transfer.log"; sleep 0.1; tail -c +21 "$examples/one_transfer.log"; } | "$program" recover > "$work/out" 2> "$work/err"
    status=$?
    expect 'recover: an input in pieces' 0 $'lsn 9\n0 70\n1 30\n' ''

    head -c 44 "$examples/genesis.log" > "$work/front"
    on_file "$work/front" recover
    expect 'no byte behind the batch' 0 "$genesis_text" ''
    printf '\x4f' | cat "$work/front" - > "$work/lone_gate"
    on_file "$work/lone_gate" recover
    expect 'a last byte 4F' 0 "$genesis_text" ''
    printf '\xff\xff' | cat "$examples/genesis.log" - > "$work/behind"
    on_file "$work/behind" recover
    expect 'bytes behind a closed gate' 0 "$genesis_text" ''

    on_file /dev/null recover
    expect 'no bytes' 7 '' 'aether: not a log'
    on_file / recover
    expect 'an input that is a folder' 4 '' 'aether: read failed'
    "$program" recover <&- > "$work/out" 2> "$work/err"
    status=$?
    expect 'a closed input' 4 '' 'aether: read failed'
    : > "$work/out"
    "$program" recover < "$examples/genesis.log" > /dev/full 2> "$work/err"
    status=$?
    expect 'a full device' 5 '' 'aether: write failed'
    "$program" recover < "$examples/genesis.log" >&- 2> "$work/err"
    status=$?
    expect 'a closed output' 5 '' 'aether: write failed'
}

# A log with more records, open transfers and Updates than any number in the code but the limits of the formats themselves: each transfer has an
# Update and no end. The numbers of half of them follow one another, those of the others lie far apart. No memory is wanting for any.
large_cases() {
    python3 - "$work/large" << 'END'
import struct, sys
transfers, most_units = 1050000, 1048576
units = [0x0102000000000000, 100, 0x0102000100000000, 0]
for k in range(transfers):
    txn = k // 2 + 1 if k % 2 == 0 else 1000000007 + 4093 * (k // 2)
    units += (0x0202000000000000 + txn, 0xFFFFFFFF00000000)
with open(sys.argv[1], "wb") as log:
    log.write(b"\x4fAETHER1")
    for first in range(0, len(units), most_units):
        batch = units[first : first + most_units]
        log.write((b"\x4f" if first else b"") + struct.pack(f">I{len(batch)}Q", len(batch), *batch))
    log.write(b"\0")
END
    on_file "$work/large" recover
    expect 'a large log' 0 $'lsn 2100004\n0 100\n1 0\n' ''
    rm -f "$work/large"
}

dump_cases() {
    on_file "$examples/genesis.log" dump
    expect 'dump: genesis log' 0 $'0 genesis 0 100\n2 genesis 1 0\nlsn 4\n' ''
    on_file "$examples/one_transfer.log" dump
    expect 'dump: one transfer' 0 \
        $'0 genesis 0 100\n2 genesis 1 0\n4 update 1 0 -30 0\n6 update 1 1 30 0\n8 commit 1 1\nlsn 9\n' ''
    on_file "$examples/wide_balances.log" dump
    expect 'dump: wide balances' 0 $'0 genesis 0 9007199254740994\n2 genesis 1 4611686018427387902
4 update 1 0 -1 0\n6 update 1 1 1 0\n8 commit 1 1\n9 over 2 1\nlsn 10\n' ''
    on_file "$examples/wrong_predecessor.log" dump
    expect 'dump: a list that is not lawful' 0 $'0 genesis 0 100\n2 genesis 1 0\n4 update 1 0 -30 4\nlsn 6\n' ''

    on_file /dev/null dump
    expect 'dump: no bytes' 7 '' 'aether: not a log'
    head -c 20 "$examples/genesis.log" > "$work/cut"
    on_file "$work/cut" dump
    expect 'dump: a cut batch' 7 '' 'aether: bad batch at byte 0'
    { head -c 44 "$examples/genesis.log"; printf 'O\0\0\0\1\0\0\0\0\0\0\0\0\0'; } > "$work/bad"
    on_file "$work/bad" dump
    expect 'dump: a bad record' 7 '' 'aether: bad record at lsn 4'
    on_file / dump
    expect 'dump: an input that is a folder' 4 '' 'aether: read failed'
    : > "$work/out"
    "$program" dump < "$examples/genesis.log" > /dev/full 2> "$work/err"
    status=$?
    expect 'dump: a full device' 5 '' 'aether: write failed'
    "$program" dump < "$examples/genesis.log" >&- 2> "$work/err"
    status=$?
    expect 'dump: a closed output' 5 '' 'aether: write failed'
}

# A log as a reader shows it that was written from docs/FORMAT.md alone: the same text, the same fault.
expect_as_read() {
    local name=$1 file=$2
    "$python" -I -S "$examples/read_log.py" < "$file" > "$work/read" 2> "$work/read_fault"
    local wanted=$? text fault
    IFS= read -r -d '' text < "$work/read"
    IFS= read -r -d '' fault < "$work/read_fault"
    on_file "$file" dump
    expect "$name" "$wanted" "$text" "${fault%$'\n'}"
}

reader_cases() {
    local file length python
    # The `python3` on PATH may be a script that looks for Python, which takes longer than what is done here.
    if ! python=$(python3 -c 'import sys; print(sys.executable)' 2> /dev/null); then
        echo 'built_program: no python3, nothing of examples/read_log.py'
        return
    fi
    for file in "$examples"/*.log "$examples/README.md" /dev/null; do
        expect_as_read "$file as another reader shows it" "$file"
    done
    for file in one_transfer upgraded; do
        for ((length = 0; length < 90; length++)); do
            head -c "$length" "$examples/$file.log" > "$work/front"
            expect_as_read "the first $length bytes of $file.log as another reader shows them" "$work/front"
        done
    done
    cp "$examples/genesis.log" "$work/noted.log"
    printf 'pay 0 1 30 : over to you\npay 1 0 50 0 1 2\npay 0 1 2147483647\n' > "$work/noted"
    on_file "$work/noted" run "$work/noted.log" --workers 1
    expect_as_read 'a log with a note as another reader shows it' "$work/noted.log"
}

# A text of many lines goes out in blocks of up to 64 KB, and not in a write for each line.
block_cases() {
    local log=$work/blocks.log lines writes
    rm -f "$log"
    on_file /dev/null demo "$log" 10000 7
    if ! strace -f -c -e trace=write -o "$work/calls" "$program" dump < "$log" > "$work/dump" 2> "$work/err"; then
        echo "built_program: no strace that may trace, the writes of a dump aren't counted"
        return
    fi
    lines=$(wc -l < "$work/dump")
    writes=$(awk '$NF == "write" { print $4 }' "$work/calls")
    if [ "$lines" = 30065 ] && [ "${writes:-31}" -le 30 ]; then
        passed=$((passed + 1))
    else
        failed=$((failed + 1))
        printf '%s: a dump in blocks: %s lines in %s writes\n' "$program" "$lines" "$writes"
    fi
}
