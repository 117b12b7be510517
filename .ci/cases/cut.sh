# The commands `cut` and `upgrade`, and logs of the second format.

made=$work/made.log
cut_log=$examples/cut.log
cut_text=$'lsn 9\n0 70\n1 30\n'

# The head of a file of the second format: where its list begins, the greatest number before it, and a balance and a mark for each account.
head_of() {
    local begin=$1 txn=$2
    shift 2
    bytes_of 4F41455448455232 "$(printf '%08x%08x%08x' "$begin" "$txn" $(($# / 2)))" "$(printf '%016x%08x' "$@")"
}

# A batch of these units behind an open gate, and a gate that isn't open.
batch_of() {
    bytes_of 4F "$(printf '%08x' $#)" "$@" 00
}

# The command makes this log of that one, and answers this text.
expect_made() {
    local name=$1 command=$2 source=$3 text=$4 want=$5
    rm -f "$made"
    on_file "$source" "$command" "$made"
    expect "$name" 0 "$text" ''
    expect_file "$name" "$made" "$want"
}

# The log of one transfer, cut and upgraded; and what was made, once more.
made_cases() {
    local command
    { head_of 9 1 70 9 30 9; printf '\0'; } > "$work/want"
    expect_file 'the cut log among the examples' "$cut_log" "$work/want"
    { head_of 4 0 100 0 0 0; tail -c +45 "$examples/one_transfer.log"; } > "$work/want"
    expect_file 'the upgraded log among the examples' "$examples/upgraded.log" "$work/want"
    expect_made 'cut' cut "$examples/one_transfer.log" "$cut_text" "$cut_log"
    expect_made 'upgrade' upgrade "$examples/one_transfer.log" "$cut_text" "$examples/upgraded.log"
    expect_made 'cut of a cut log' cut "$cut_log" "$cut_text" "$cut_log"
    expect_made 'upgrade of a cut log' upgrade "$cut_log" "$cut_text" "$cut_log"
    expect_made 'upgrade of an upgraded log' upgrade "$examples/upgraded.log" "$cut_text" "$examples/upgraded.log"
    expect_made 'cut of an upgraded log' cut "$examples/upgraded.log" "$cut_text" "$cut_log"
    { head_of 4 0 100 0 0 0; printf '\0'; } > "$work/want"
    for command in cut upgrade; do
        expect_made "$command of accounts alone" "$command" "$examples/genesis.log" "$genesis_text" "$work/want"
    done
    read_cases
}

# What was made is read, dumped, and run on.
read_cases() {
    local file
    for file in "$cut_log" "$examples/upgraded.log"; do
        on_file "$file" recover
        expect "recover of ${file##*/}" 0 "$cut_text" ''
    done
    on_file "$cut_log" dump
    expect 'dump of a cut log' 0 $'snapshot 9 1\naccount 0 70 9\naccount 1 30 9\nlsn 9\n' ''
    on_file "$examples/upgraded.log" dump
    expect 'dump of an upgraded log' 0 \
        $'snapshot 4 0\naccount 0 100 0\naccount 1 0 0\n4 update 1 0 -30 0\n6 update 1 1 30 0\n8 commit 1 1\nlsn 9\n' ''
    run_on "$cut_log" $'pay 1 0 30\n' --workers 1
    expect 'run on a cut log' 0 $'done 2 14\nlsn 14\n0 100\n1 0\n' ''
    on_file "$log" dump
    expect 'run on a cut log, and its list' 0 \
        $'snapshot 9 1\naccount 0 70 9\naccount 1 30 9\n9 update 2 1 -30 9\n11 update 2 0 30 9\n13 commit 2 1\nlsn 14\n' ''
    cp "$log" "$work/whole"
    { head_of 14 2 100 14 0 14; printf '\0'; } > "$work/want"
    expect_made 'cut of a cut log that was run on' cut "$work/whole" $'lsn 14\n0 100\n1 0\n' "$work/want"
}

# What has no end record; the last number; a list that begins at 0; what stands behind the end.
odd_cases() {
    { head_of 8 7 100 0 0 0; printf '\0'; } > "$work/want"
    expect_made 'cut of an unfinished transfer' cut "$examples/unfinished_transfer.log" $'lsn 8\n0 100\n1 0\n' "$work/want"
    run_on "$work/want" 'pay 0 1 10' --workers 1
    expect 'run on what was cut of an unfinished transfer' 0 $'done 8 13\nlsn 13\n0 90\n1 10\n' ''
    { head_of 4 0 100 0 0 0; tail -c +45 "$examples/unfinished_transfer.log"; } > "$work/want"
    expect_made 'upgrade of an unfinished transfer' upgrade "$examples/unfinished_transfer.log" $'lsn 8\n0 100\n1 0\n' "$work/want"
    { head_of 5 4294967295 100 0 0 0; printf '\0'; } > "$work/want"
    expect_made 'cut of the greatest number' cut "$examples/greatest_transaction.log" $'lsn 5\n0 100\n1 0\n' "$work/want"
    cp "$work/want" "$work/full"
    run_on "$work/full" ''
    expect 'run on a cut log without a number' 9 '' 'aether: transaction numbers end: first 4294967296, count 0'
    expect_file 'run on a cut log without a number' "$log" "$work/full"
    { head_of 0 0 5 0 0 0; printf '\0'; } > "$work/zero"
    run_on "$work/zero" 'pay 0 1 5' --workers 1
    expect 'run on a list that begins at 0' 0 $'done 1 5\nlsn 5\n0 0\n1 5\n' ''
    { cat "$examples/one_transfer.log"; printf 'O\0\0\0\1 and the end of a batch'; } > "$work/torn"
    expect_made 'cut of a torn end' cut "$work/torn" "$cut_text" "$cut_log"
    expect_made 'upgrade of a torn end' upgrade "$work/torn" "$cut_text" "$examples/upgraded.log"
    place_of_log_cases
}

# LOG is the log that is read, or another file, whose end stays behind the gate.
place_of_log_cases() {
    local command want
    for command in cut upgrade; do
        want=$cut_log
        [ "$command" = upgrade ] && want=$examples/upgraded.log
        cp "$examples/one_transfer.log" "$made"
        on_file "$made" "$command" "$made"
        expect "$command onto the log that is read" 10 '' 'aether: log exists'
        expect_file "$command onto the log that is read" "$made" "$examples/one_transfer.log"
        yes 'an old text' | head -n 20 > "$work/old_text"
        cp "$work/old_text" "$made"
        on_file "$examples/one_transfer.log" "$command" "$made"
        expect "$command over a file that is no log" 0 "$cut_text" ''
        { cat "$want"; tail -c +$(($(wc -c < "$want") + 1)) "$work/old_text"; } > "$work/want"
        expect_file "$command over a file that is no log" "$made" "$work/want"
    done
}

# A cut log whose list begins six units before the last LSN: one transfer fits, of however many workers make it.
end_cases() {
    local options units
    { head_of 4294967290 0 100 0 0 0; printf '\0'; } > "$work/near"
    run_on "$work/near" $'pay 0 1 30\npay 1 0 30\n' --workers 1
    expect 'run to the last LSN' 8 $'done 1 4294967295\n' 'aether: log end: tail 4294967295, total 2'
    on_file "$log" recover
    expect 'run to the last LSN, and the log' 0 $'lsn 4294967295\n0 70\n1 30\n' ''
    expect_made 'cut at the last LSN' cut "$log" $'lsn 4294967295\n0 70\n1 30\n' \
        <({ head_of 4294967295 1 70 4294967295 30 4294967295; printf '\0'; })
    for options in '--workers 1' '--workers 2 --slots 0' '--workers 16 --ring 1024' '--workers 2 --wait'; do
        # Where workers wait, a disk that syncs slowly takes long for each transfer.
        units=3000
        [[ $options = *--wait ]] && units=300
        open_bank 2000
        near_bank "$units"
        # shellcheck disable=SC2086
        timeout 600 "$program" run "$log" $options < "$work/left" > "$work/told" 2> "$work/err"
        status=$?
        : > "$work/out"
        expect "a bank at the end of the LSNs, $options" 8 '' "$(grep -aE '^aether: log end: tail 42949[0-9]{5}, total [0-9]{1,2}$' "$work/err")"
        judge_bank "a bank at the end of the LSNs, $options"
    done
}

# The bank as a cut log, whose list begins so many units before the last LSN.
near_bank() {
    rm -f "$made"
    on_file "$log" cut "$made"
    { head -c 8 "$made"; bytes_of "$(printf '%08x' $((4294967295 - $1)))"; tail -c +13 "$made"; } > "$log"
    rm "$made"
    look
}

# Heads as a stranger might make them.
head_cases() {
    local rows=(70 9 30 9) short=0401000100000002 balance
    head -c 20 "$cut_log" | cat - <(bytes_of 0000000000000046 0000000A) <(tail -c +33 "$cut_log") > "$work/bad"
    expect_bad 'bad snapshot'
    head -c 43 "$cut_log" > "$work/bad"
    expect_bad 'bad snapshot'
    bytes_of 4F41455448455232 00000009 00000001 00000000 00 > "$work/bad"
    expect_bad 'bad snapshot'
    # shellcheck disable=SC2046
    { head_of 9 1 $(yes '1 0' | head -n 4097); printf '\0'; } > "$work/bad"
    expect_bad 'bad snapshot'
    for balance in 4000000000000000 8000000000000000 FFFFFFFFFFFFFFFF; do
        { head_of 9 1 70 9 $((16#$balance)) 9; printf '\0'; } > "$work/bad"
        expect_bad 'bad snapshot'
        { head_of 9 1 $((16#$balance)) 9 0 9; printf '\0'; } > "$work/bad"
        expect_bad 'bad snapshot'
    done
    tr 1 2 < "$examples/genesis.log" > "$work/bad"
    expect_bad 'bad snapshot'
    tr 2 1 < "$cut_log" > "$work/bad"
    expect_bad 'bad batch at byte 0'
    { head_of 9 1 "${rows[@]}"; batch_of; } > "$work/bad"
    expect_bad 'bad batch at byte 44'
    { head_of 4294967295 1 "${rows[@]}"; batch_of $short; } > "$work/bad"
    expect_bad 'bad batch at byte 44'
    { head_of 4294967294 1 "${rows[@]}"; batch_of $short $short; } > "$work/bad"
    expect_bad 'bad batch at byte 44'
    { head_of 4294967294 1 "${rows[@]}"; batch_of $short; } > "$work/whole"
    on_file "$work/whole" recover
    expect 'a list that ends at the last LSN' 0 $'lsn 4294967295\n0 70\n1 30\n' ''
    { head_of 9 1 "${rows[@]}"; batch_of 0000000000000000; } > "$work/bad"
    expect_bad 'bad record at lsn 9'
    many_accounts_cases
    hostile_list_cases
}

# Lists behind a head that are not lawful.
hostile_list_cases() {
    local rows=(70 9 30 9) third=0401000100000003
    { head_of 9 2 "${rows[@]}"; batch_of 0401000100000002; } > "$work/bad"
    expect_bad 'unlawful record at lsn 9: ended'
    { head_of 9 2 "${rows[@]}"; batch_of "$third" 0401000100000001; } > "$work/bad"
    expect_bad 'unlawful record at lsn 10: ended'
    { head_of 9 2 "${rows[@]}"; batch_of "$third" "$third"; } > "$work/bad"
    expect_bad 'unlawful record at lsn 10: ended'
    { head_of 9 1 "${rows[@]}"; batch_of 0102000200000000 0000000000000005; } > "$work/bad"
    expect_bad 'unlawful record at lsn 9: genesis'
    { head_of 9 1 "${rows[@]}"; batch_of 0202000200000002 FFFFFFE200000000; } > "$work/bad"
    expect_bad 'unlawful record at lsn 9: account'
    { head_of 9 1 "${rows[@]}"; batch_of 0202000000000002 FFFFFFE200000000; } > "$work/bad"
    expect_bad 'unlawful record at lsn 9: prev'
    { head_of 9 1 "${rows[@]}"; batch_of 0202000000000002 FFFFFFB900000009 0202000100000002 0000004700000009 0301000100000002; } > "$work/bad"
    expect_bad 'unlawful record at lsn 13: balance'
}

# As many accounts as there may be.
many_accounts_cases() {
    local command
    # shellcheck disable=SC2046
    { head_of 9 1 $(yes '1 9' | head -n 4096); printf '\0'; } > "$work/whole"
    { echo 'lsn 9'; seq 0 4095 | sed 's/$/ 1/'; } > "$work/want_text"
    for command in recover cut upgrade; do
        rm -f "$made"
        if [ "$command" = recover ]; then on_file "$work/whole" recover; else on_file "$work/whole" "$command" "$made"; fi
        mv "$work/out" "$work/told"
        : > "$work/out"
        expect "$command of 4096 accounts" 0 '' ''
        expect_file "$command of 4096 accounts" "$work/told" "$work/want_text"
        [ "$command" = recover ] || expect_file "$command of 4096 accounts, the log" "$made" "$work/whole"
    done
}

# Fronts of a cut log of each length, and of one with a list behind its head.
front_cases() {
    local length want
    cp "$cut_log" "$log"
    printf 'pay 1 0 30\n' > "$work/script"
    on_file "$work/script" run "$log" --workers 1
    cp "$log" "$work/run_on"
    for ((length = 0; length <= 60; length++)); do
        head -c "$length" "$work/run_on" > "$work/front"
        want='bad batch at byte 44'
        [ "$length" -lt 46 ] && want=''
        [ "$length" -lt 44 ] && want='bad snapshot'
        [ "$length" -lt 8 ] && want='not a log'
        on_file "$work/front" recover
        if [ "$want" ]; then expect "the first $length bytes of a cut log" 7 '' "aether: $want"; else expect "the first $length bytes of a cut log" 0 "$cut_text" ''; fi
    done
    for ((length = 0; length <= 45; length++)); do
        head -c "$length" "$cut_log" > "$work/front"
        want='bad snapshot'
        [ "$length" -lt 8 ] && want='not a log'
        on_file "$work/front" recover
        if [ "$length" -lt 44 ]; then expect "a cut log of $length bytes" 7 '' "aether: $want"; else expect "a cut log of $length bytes" 0 "$cut_text" ''; fi
        [ "$length" -lt 44 ] && continue
        run_on "$work/front" $'pay 1 0 30\n' --workers 1
        expect "run on a cut log of $length bytes" 0 $'done 2 14\nlsn 14\n0 100\n1 0\n' ''
        expect_made "cut of a cut log of $length bytes" cut "$work/front" "$cut_text" "$cut_log"
    done
}

# Inputs and outputs that fail: what LOG is then.
cut_fault_cases() {
    local command want
    for command in cut upgrade; do
        want=$cut_log
        [ "$command" = upgrade ] && want=$examples/upgraded.log
        rm -f "$made"
        on_file / "$command" "$made"
        expect "$command: an input that is a folder" 4 '' 'aether: read failed'
        expect_file "$command: an input that is a folder" "$made" /dev/null
        "$program" "$command" "$made" <&- > "$work/out" 2> "$work/err"
        status=$?
        expect "$command: a closed input" 4 '' 'aether: read failed'
        expect_file "$command: a closed input" "$made" /dev/null
        "$program" "$command" "$made" < "$examples/one_transfer.log" > /dev/full 2> "$work/err"
        status=$?
        : > "$work/out"
        expect "$command: a full device" 5 '' 'aether: write failed'
        expect_file "$command: a full device" "$made" "$want"
        on_file "$examples/one_transfer.log" "$command" "$made"
        expect "$command once more, after a full device" 10 '' 'aether: log exists'
        rm "$made"
        "$program" "$command" "$made" < "$examples/one_transfer.log" >&- 2>&-
        status=$?
        : > "$work/out"
        : > "$work/err"
        expect "$command: both outputs closed" 5 '' ''
        expect_file "$command: both outputs closed" "$made" "$want"
        name_cases
    done
}

# An input that comes in pieces, and a name that begins as a flag.
name_cases() {
    rm -f "$made" "$work/-x.log"
    { head -c 20 "$examples/one_transfer.log"; sleep 0.1; tail -c +21 "$examples/one_transfer.log"; } | "$program" "$command" "$made" > "$work/out" 2> "$work/err"
    status=$?
    expect "$command: an input in pieces" 0 "$cut_text" ''
    expect_file "$command: an input in pieces" "$made" "$want"
    (cd "$work" && "$program" "$command" -- -x.log < "$examples/one_transfer.log" > "$work/out" 2> "$work/err")
    status=$?
    expect "$command: a bare name that begins as a flag" 0 "$cut_text" ''
    expect_file "$command: a bare name that begins as a flag" "$work/-x.log" "$want"
    rm -f "$work/-x.log"
}

# A log of three batches, the second of which begins amid a record, and what `upgrade` makes of it: a record of one unit stands first, and then all have two, so
# the first batch of whole records has one unit fewer than it may have.
large_logs() {
    python3 - "$work/large" "$work/large_want" << 'END'
import struct, sys
most_units, last = 1048576, 4294967295
front = [0x0102000000000000, 100, 0x0102000100000000, 0]
rest = [0x0401000100000000 + last]
for k in range(1050000):
    rest += (0x0202000000000000 + k + 1, 0xFFFFFFFF00000000)
def batches(units, first):
    for begin, end in ((0, first), (first, first + most_units), (first + most_units, len(units))):
        yield struct.pack(f">I{end - begin}Q", end - begin, *units[begin:end])
with open(sys.argv[1], "wb") as log:
    log.write(b"\x4fAETHER1" + b"\x4f".join(batches(front + rest, most_units)) + b"\0")
with open(sys.argv[2], "wb") as log:
    log.write(b"\x4fAETHER2" + struct.pack(">III QI QI", 4, 0, 2, 100, 0, 0, 0))
    log.write(b"".join(b"\x4f" + batch for batch in batches(rest, most_units - 1)) + b"\0")
END
}

# Such a log is upgraded, and cut; and an upgrade ends in its midst: by a kill, a limit on files, a full file system. Then no log is there, or the whole one, and
# the same call makes it.
large_upgrade_cases() {
    local text=$'lsn 2100005\n0 100\n1 0\n' delay child limit
    large_logs
    expect_made 'upgrade of a large log' upgrade "$work/large" "$text" "$work/large_want"
    expect_made 'upgrade of an upgraded large log' upgrade "$work/large_want" "$text" "$work/large_want"
    { head_of 2100005 4294967295 100 0 0 0; printf '\0'; } > "$work/want"
    expect_made 'cut of a large log' cut "$work/large" "$text" "$work/want"
    expect_made 'cut of an upgraded large log' cut "$work/large_want" "$text" "$work/want"
    for delay in 0.01 0.03 0.05 0.07 0.09 0.12 0.15 0.2 0.25 0.3; do
        rm -f "$made"
        "$program" upgrade "$made" < "$work/large" > "$work/out" 2> "$work/err" &
        child=$!
        sleep "$delay"
        kill -KILL "$child" 2> /dev/null
        wait "$child" 2> /dev/null
        expect_whole_or_absent "upgrade, killed after $delay"
    done
    # In the second batch, and in the last.
    for limit in 12000 16390; do
        rm -f "$made"
        { (ulimit -c 0 && ulimit -f "$limit" && exec timeout 600 "$program" upgrade "$made" < "$work/large" > "$work/out" 2> "$work/err"); status=$?; } 2> /dev/null
        expect "upgrade: a limit of $limit on files" 153 '' ''
        expect_whole_or_absent "upgrade: a limit of $limit on files"
        rm -f "$made"
        (trap '' XFSZ && ulimit -f "$limit" && exec timeout 600 "$program" upgrade "$made" < "$work/large" > "$work/out" 2> "$work/err")
        status=$?
        expect "upgrade: a limit of $limit on files, and no signal" 6 '' 'aether: disk failed'
        expect_whole_or_absent "upgrade: a limit of $limit on files, and no signal"
    done
    full_upgrade_cases
    rm -f "$work/large" "$work/large_want" "$made" "$work/script"
}

# An upgrade of the large log has just ended, however it did: what was made is no log, or the whole one; and the same call makes it where it isn't there.
expect_whole_or_absent() {
    local name=$1 file=${2:-$made}
    if [ -e "$file" ]; then
        on_file "$file" recover
        if [ "$status" = 0 ]; then expect_file "$name: a whole log" "$file" "$work/large_want"; else expect "$name: no log" 7 '' 'aether: not a log'; fi
        if [ "$status" = 0 ]; then return; fi
    fi
    on_file "$work/large" upgrade "$file"
    expect "$name: the same call once more" 0 "$text" ''
    expect_file "$name: the same call once more" "$file" "$work/large_want"
}

# A file system that is full in the midst of a batch, for both commands.
full_upgrade_cases() {
    mkdir -p "$mounted"
    if ! mount -t tmpfs -o size=12m none "$mounted" 2> /dev/null; then
        return
    fi
    on_file "$work/large" upgrade "$mounted/log"
    expect 'upgrade on a file system that gets full' 6 '' 'aether: disk failed'
    on_file "$mounted/log" recover
    expect 'upgrade on a file system that gets full, and no log' 7 '' 'aether: not a log'
    mount -o remount,size=20m "$mounted"
    expect_whole_or_absent 'upgrade on a file system that was full' "$mounted/log"
    rm "$mounted/log"
    mount -o remount,size=32k "$mounted"
    head -c 32768 /dev/zero > "$mounted/all"
    on_file "$work/large" cut "$mounted/log"
    expect 'cut on a full file system' 6 '' 'aether: disk failed'
    rm "$mounted/all"
    on_file "$work/large" cut "$mounted/log"
    expect 'cut on a file system that was full' 0 "$text" ''
    umount "$mounted"
}

# Runs on cut and on upgraded logs tell what those on the whole log tell, and write the same records.
same_cases() {
    local command size
    open_bank 300
    cp "$work/left" "$work/script"
    on_file "$work/script" run "$log" --workers 1
    cp "$log" "$work/whole"
    awk '{ $2 = ($2 + 3) % 10; $3 = ($2 + 1 + $4 % 9) % 10; print }' "$work/script" > "$work/more"
    on_file "$work/more" run "$log" --workers 1
    expect 'run on a whole log' 0 "$(cat "$work/out")"$'\n' ''
    cp "$work/out" "$work/told"
    "$program" dump < "$log" | grep '^[0-9]' > "$work/dumped"
    for command in cut upgrade; do
        rm -f "$made"
        "$program" "$command" "$made" < "$work/whole" > "$work/out" 2> "$work/err"
        size=$(wc -c < "$made")
        on_file "$work/more" run "$made" --workers 1
        expect_file "run on what $command made" "$work/out" "$work/told"
        "$program" dump < "$made" | grep '^[0-9]' > "$work/lines"
        tail -n "$(wc -l < "$work/lines")" "$work/dumped" > "$work/wanted"
        expect_file "run on what $command made, and its records" "$work/lines" "$work/wanted"
        [ "$command" = cut ] && expect_true "cut of a bank: $size bytes" [ "$size" = 141 ]
        "$program" cut "$work/again.log" < "$made" > /dev/null
        expect_made "cut of what $command made and was run on" cut "$log" "$(tail -n 11 "$work/told")"$'\n' "$work/again.log"
        rm "$work/again.log"
    done
}

# A bank that is cut, upgraded and killed in turn.
cut_bank_cases() {
    local options
    for options in '--workers 1' '--workers 2 --ring 1024' '--workers 16 --ring 1024 --slots 16' '--wait'; do
        open_bank 300
        # shellcheck disable=SC2086
        head -n 200 "$work/left" | timeout 600 "$program" run "$log" $options > "$work/told" 2> "$work/err"
        status=$?
        : > "$work/out"
        expect "a bank to be cut, $options" 0 '' ''
        judge_bank "a bank to be cut, $options"
        remade_bank cut
        # shellcheck disable=SC2086
        finish_bank "a cut bank, $options" $options
        remade_bank upgrade
        finish_bank "a cut and upgraded bank, $options"
    done
    open_bank 10000
    remade_bank cut
    kill_bank 'a cut bank, killed' 500 KILL --workers 2
    # How many transfers are left then is up to the system. Those asked for beside them get their numbers by the look behind the upgrade.
    transfers 10000 >> "$work/left"
    remade_bank upgrade
    kill_bank 'a cut bank, upgraded and killed' 500 KILL --workers 4 --ring 1024
    remade_bank cut
    finish_bank 'a cut bank, killed twice, run on'
}

# The bank's log is replaced by what the command makes of it.
remade_bank() {
    rm -f "$made"
    "$program" recover < "$log" > "$work/accounts"
    on_file "$log" "$1" "$made"
    mv "$work/out" "$work/told"
    : > "$work/out"
    expect "$1 of a bank" 0 '' ''
    expect_file "$1 of a bank" "$work/told" "$work/accounts"
    mv "$made" "$log"
    look
}

# A little more memory from one run to the next: each makes the log, or says that there is no memory and makes none.
cut_memory_cases() {
    local command most refused=0
    for command in cut upgrade; do
        refused=0
        for ((most = 4000; most <= 24000; most += 1000)); do
            rm -f "$made"
            { on_file_within "$most" "$examples/one_transfer.log" "$command" "$made"; } 2> /dev/null
            case $status in
            0) expect "$command within $most kilobytes" 0 "$cut_text" '' ;;
            1)
                expect "$command within $most kilobytes" 1 '' 'aether: out of memory'
                expect_file "$command within $most kilobytes" "$made" /dev/null
                ;;
            # Too little for the system to begin the program.
            *) [ "$refused" = 0 ] && continue; expect "$command within $most kilobytes" 0 "$cut_text" '' ;;
            esac
            refused=1
        done
    done
}

# The code of a recipe of the manual, which begins with this title.
recipe() {
    awk -v title="**$1" 'index($0, title) == 1 { on = 1; next } /^(\*\*|#)/ { on = 0 } on && sub(/^    /, "")' "$top/docs/MANUAL.md"
}

# Does what a recipe says, in a folder in which the program is ./aether.
run_recipe() {
    recipe "$1" > "$work/recipe.sh"
    (cd "$work/recipe" && timeout 600 bash -e "$work/recipe.sh" > "$work/out" 2> "$work/err")
    status=$?
    expect_true "the manual has the recipe '$1'" [ -s "$work/recipe.sh" ]
}

# A folder with the program and the log of one transfer.
recipe_folder() {
    rm -rf "$work/recipe"
    mkdir "$work/recipe"
    ln -s "$program" "$work/recipe/aether"
    cp "$examples/one_transfer.log" "$work/recipe/bank.log"
}

# The manual's recipes for logs that are cut.
recipe_cases() {
    local at=$work/recipe
    recipe_folder
    run_recipe 'A log that has grown, made short'
    expect 'recipe: a log that has grown' 0 $'64000000\n64000000\n64000000\n' ''
    expect_true 'recipe: a log that has grown, once it is cut' [ "$(wc -c < "$at/short.log")" -lt 900 ]
    expect_true 'recipe: a log that has grown, cut twice' [ "$(wc -c < "$at/shorter.log")" = 789 ]

    recipe_folder
    cp "$at/bank.log" "$at/whole.log"
    printf 'pay 1 0 30\n' | "$program" run "$at/whole.log" --workers 1 > "$work/told"
    run_recipe 'When to cut, and what is lost'
    expect 'recipe: when to cut' 0 "$cut_text$(< "$work/told")"$'\n' ''
    "$program" dump < "$at/week.log" | grep '^[0-9]' > "$work/lines"
    "$program" dump < "$at/whole.log" | grep '^[0-9]' | tail -n 3 > "$work/wanted"
    expect_file 'recipe: when to cut, and the records' "$work/lines" "$work/wanted"

    recipe_folder
    run_recipe 'After status 5 or 6, or a signal'
    expect 'recipe: after status 5 or 6' 0 "$cut_text" ''
    expect_file 'recipe: after status 5 or 6' "$at/next.log" "$cut_log"

    recipe_folder
    ln -s "$examples" "$at/examples"
    run_recipe 'At the end of the LSNs or of the numbers'
    expect 'recipe: at the end of the numbers' 0 "$genesis_text" ''
    expect_file 'recipe: at the end of the numbers' "$at/fresh.log" "$examples/genesis.log"

    recipe_folder
    cp "$cut_log" "$at/bank.log"
    run_recipe 'Which program reads which file'
    expect 'recipe: which file' 0 '2' ''
    in_use_cases
}

# A log that is cut while programs use it.
in_use_cases() {
    local at=$work/recipe title='How to cut a log in use' child line
    if ! command -v flock > /dev/null; then
        echo 'built_program: no flock, no log is cut in use'
        return
    fi
    recipe_folder
    run_recipe "$title"
    expect 'recipe: a log in use' 0 "$cut_text" ''
    expect_file 'recipe: a log in use' "$at/bank.log" "$cut_log"
    expect_file 'recipe: a log in use, and the old file' "$at/before.log" "$examples/one_transfer.log"

    # A `run` has the log, and can't end before its lines are read: nothing is cut.
    recipe_folder
    open_bank 10000
    mv "$log" "$at/bank.log"
    rm -f "$work/pipe"
    mkfifo "$work/pipe"
    "$program" run "$at/bank.log" < "$work/left" > "$work/pipe" 2> /dev/null &
    child=$!
    exec 3< "$work/pipe"
    read -r -t 600 line <&3
    run_recipe "$title"
    expect 'recipe: a log in use by a run' 1 '' ''
    cat <&3 > "$work/told"
    exec 3<&-
    wait "$child"
    expect_true 'recipe: a log in use by a run has one name' [ ! -e "$at/before.log" ]
    expect_true "recipe: a log in use by a run, which went on behind '$line'" [ "$(wc -l < "$work/told")" = 10010 ]

    # The recipe has the log: `run` ends at once.
    recipe_folder
    (cd "$at" && flock -n bank.log sh -c './aether cut next.log < bank.log > /dev/null && ./aether run bank.log < /dev/null') > "$work/out" 2> "$work/err"
    status=$?
    expect 'recipe: a run while the log is cut' 6 '' 'aether: disk failed'
}

cut_cases() {
    made_cases
    odd_cases
    end_cases
    head_cases
    front_cases
    cut_fault_cases
    same_cases
    cut_bank_cases
    recipe_cases
    if command -v python3 > /dev/null; then large_upgrade_cases; fi
}
