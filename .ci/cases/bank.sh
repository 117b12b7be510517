# A bank of ten accounts: many transfers, also where the program is killed amid them, and what must stand in its log then.

# So many transfers between ten accounts, the same at each call.
transfers() {
    awk -v count="$1" 'BEGIN {
        x = 7
        for (i = 0; i < count; i++) {
            x = (75 * x + 74) % 65537
            print "pay", x % 10, (x % 10 + 1 + int(x / 10) % 9) % 10, 1 + int(x / 90) % 500
        }
    }'
}

# A bank of ten accounts with 1000 each, and so many transfers.
open_bank() {
    yes 1000 | head -n 10 > "$work/balances10"
    transfers "$1" > "$work/left"
    open_bank_of "$work/balances10"
}

# A bank of these balances, and the transfers in $work/left.
open_bank_of() {
    rm -f "$log" "$work/jobs"
    "$program" new "$log" < "$1" > /dev/null
    look
}

# Looks at the bank before the next run: where its log ends, and which transfers that run will make, under which numbers.
look() {
    "$program" dump < "$log" > "$work/dump"
    bank_end=$(awk '$1 == "lsn" { print $2 }' "$work/dump")
    awk 'FILENAME == ARGV[1] { if ($1 != "account" && $2 != "genesis" && $3 > most) most = $3; next } { print most + ++count, $0 }' \
        "$work/dump" "$work/left" > "$work/asked"
    cat "$work/asked" >> "$work/jobs"
}

# What must stand in the bank after a run, however it ended. $work/told is what it wrote.
judge_bank() {
    local name=$1
    on_file "$log" recover
    cp "$work/out" "$work/accounts"
    "$program" dump < "$log" > "$work/dump"
    # Each transfer stands there as it would end alone, and none ends twice; so the sum of all balances is what it was.
    if command -v python3 > /dev/null; then
        python3 -I -S "$top/.ci/replay.py" "$work/jobs" "$work/dump" > "$work/replayed"
        expect_file "$name: the transfers, one alone after the other" "$work/replayed" "$work/accounts"
    fi
    # What was told is a front of what the log has: no line is lost.
    awk -v from="$bank_end" '$1 >= from && $2 == "commit" { printf "done %s %.0f\n", $3, $1 + 1 }
        $1 >= from && ($2 == "short" || $2 == "over") { printf "%s %s %s %.0f\n", $2, $3, $4, $1 + 1 }' "$work/dump" |
        cat - "$work/accounts" > "$work/lines"
    head -c "$(wc -c < "$work/told")" "$work/lines" > "$work/wanted"
    expect_file "$name: what was told" "$work/told" "$work/wanted"
    awk 'FILENAME == ARGV[1] { if ($2 ~ /^(commit|short|over)$/) ended[$3]; next } !($1 in ended) { $1 = ""; print substr($0, 2) }' \
        "$work/dump" "$work/asked" > "$work/left"
    look
}

# Makes all that is left.
finish_bank() {
    local name=$1
    shift
    on_file "$work/left" run "$log" "$@"
    end_bank "$name"
}

# The run has just ended: all that was left must be done, and told.
end_bank() {
    local name=$1
    cp "$work/out" "$work/told"
    : > "$work/out"
    expect "$name" 0 '' ''
    judge_bank "$name"
    expect_file "$name: all is told" "$work/told" "$work/lines"
    expect_file "$name: nothing is left" "$work/left" /dev/null
}

# Starts a run, and ends it by this signal once so many lines are read of it. At least 10,000 transfers must be left: their lines are longer
# than what a pipe holds, so the run can't have ended. Until then it keeps others out; what it left is for the next.
kill_bank() {
    local name=$1 count=$2 signal=$3 child line
    shift 3
    expect_true "$name: $(wc -l < "$work/left") transfers are left" [ "$(wc -l < "$work/left")" -ge 10000 ]
    rm -f "$work/pipe"
    mkfifo "$work/pipe"
    # What a script starts beside it begins with some signals ignored.
    env --default-signal "$program" run "$log" "$@" < "$work/left" > "$work/pipe" 2> "$work/killed_err" &
    child=$!
    exec 3< "$work/pipe"
    while [ "$count" -gt 0 ] && read -r -t 600 line <&3; do
        echo "$line"
        count=$((count - 1))
    done > "$work/told"
    on_file /dev/null run "$log"
    expect "$name: another run meanwhile" 6 '' 'aether: disk failed'
    kill -s "$signal" "$child" 2> /dev/null
    wait "$child" 2> /dev/null
    status=$?
    cat <&3 >> "$work/told"
    exec 3<&-
    : > "$work/out"
    mv "$work/killed_err" "$work/err"
    expect "$name" $((128 + $(kill -l "$signal"))) '' ''
    judge_bank "$name"
}

# In many waits no sleep is longer than a millisecond: a nap that grew from one to the next would be.
sleep_cases() {
    local options
    [ -n "$calls" ] || return
    for options in '--workers 1' '--workers 2'; do
        open_bank 5000
        : > "$work/sleeps"
        # shellcheck disable=SC2086
        on_file_so "SLEEPS=$work/sleeps" "$work/left" run "$log" --wait $options
        end_bank "a bank of 5,000 transfers, --wait $options"
        expect_file "a bank of 5,000 transfers, --wait $options: the sleeps" "$work/sleeps" /dev/null
    done
}

bank_cases() {
    local options
    command -v python3 > /dev/null || echo 'built_program: no python3, no transfers of a bank are made again'
    for options in '--workers 1' '--workers 2' '--workers 2 --ring 1024' '--workers 3' '--workers 4 --ring 1024' '--workers 16 --ring 1024 --slots 16'; do
        open_bank 2000
        # shellcheck disable=SC2086
        finish_bank "a bank, $options" $options
    done
    open_bank 100
    finish_bank 'a bank, --wait' --wait
    open_bank 100
    finish_bank 'a bank of sixteen workers, --wait' --workers 16 --wait
    sleep_cases

    open_bank 10000
    kill_bank 'a bank, killed' 1 KILL --workers 1
    finish_bank 'a bank, killed, run on' --workers 1
    open_bank 10000
    kill_bank 'a bank of two workers, killed' 500 KILL --workers 2 --ring 1024
    finish_bank 'a bank of two workers, killed, run on' --workers 2
    open_bank 10000
    kill_bank 'a bank of four workers, killed' 500 KILL --workers 4 --ring 1024
    finish_bank 'a bank of four workers, killed, run on' --workers 3
    open_bank 10000
    kill_bank 'a bank of sixteen workers, killed' 500 KILL --workers 16
    finish_bank 'a bank of sixteen workers, killed, run on' --workers 16
    open_bank 10000
    kill_bank 'a bank, --wait, killed' 50 KILL --wait
    finish_bank 'a bank, --wait, killed, run on'
    for options in TERM INT HUP QUIT; do
        open_bank 10000
        kill_bank "a bank, and the signal $options" 100 "$options"
        finish_bank "a bank, and the signal $options, run on"
    done

    # Nobody reads on. With the short ring the workers are waiting for room in it, or for the disk, when the daemon stops.
    for options in '' '--ring 1024' '--workers 1 --ring 1024' '--workers 16 --ring 1024' '--wait'; do
        open_bank 10000
        # shellcheck disable=SC2086
        timeout 600 "$program" run "$log" $options < "$work/left" 2> "$work/err" | head -n 20 > "$work/told"
        status=${PIPESTATUS[0]}
        : > "$work/out"
        expect "a bank, and nobody reads on $options" 5 '' 'aether: write failed'
        judge_bank "a bank, and nobody reads on $options"
        finish_bank "a bank, and nobody reads on $options, run on"
    done

    # The disk takes no more than 16384 bytes.
    open_bank 2000
    (trap '' XFSZ && ulimit -f 16 && exec timeout 600 "$program" run "$log" < "$work/left" 2> "$work/err") | cat > "$work/told"
    status=${PIPESTATUS[0]}
    : > "$work/out"
    expect 'a bank, and the disk is full' 6 '' 'aether: disk failed'
    judge_bank 'a bank, and the disk is full'
    finish_bank 'a bank, and the disk is full, run on'
}
