# Standard streams that fail, that are closed, that nobody reads, and that don't block; and limits that end the program.

# Inputs, outputs and files that fail.
failing_cases() {
    local options name
    cp "$examples/genesis.log" "$log"
    on_file / run "$log"
    expect 'run: an input that is a folder' 4 '' 'aether: read failed'
    expect_file 'run: an input that is a folder' "$log" "$examples/genesis.log"
    for options in '--workers 1' '--workers 2' '--workers 16' '--wait'; do
        cp "$examples/genesis.log" "$log"
        : > "$work/out"
        # shellcheck disable=SC2086
        printf 'pay 0 1 30\n' | "$program" run "$log" $options > /dev/full 2> "$work/err"
        status=$?
        expect "run $options: a full device" 5 '' 'aether: write failed'
        on_file "$log" recover
        expect "run $options: a full device, and the log behind it" 0 $'lsn 9\n0 70\n1 30\n' ''
    done
    cp "$examples/genesis.log" "$log"
    : > "$work/out"
    "$program" run "$log" < /dev/null > /dev/full 2> "$work/err"
    status=$?
    expect 'run: an empty script and a full device' 5 '' 'aether: write failed'
    expect_file 'run: an empty script and a full device' "$log" "$examples/genesis.log"
    printf 'pay 0 1 30\n' | "$program" run "$log" > /dev/full 2> /dev/full
    status=$?
    : > "$work/err"
    expect 'run: full devices' 5 '' ''

    rm -f "$work/pipe"
    mkfifo "$work/pipe"
    for name in "$work" "$work/missing.log" '' /dev/full "$log/bank.log" "$work/pipe" /proc/version "$(yes x | head -n 5000 | tr -d '\n')"; do
        on_file / run "$name"
        expect "run on '${name:0:80}'" 6 '' 'aether: disk failed'
    done
    if [ -e "$work/missing.log" ]; then
        failed=$((failed + 1))
        echo "$program: run makes a missing file"
    fi
    closed_pipe_cases
}

# A pipe that nobody reads any more.
closed_pipe_cases() {
    local name
    exec 4> >(exec true)
    wait $!
    : > "$work/out"
    for name in recover dump 'ship 4' 'asof 4' 'statement 0'; do
        # shellcheck disable=SC2086
        "$program" $name < "$examples/genesis.log" >&4 2> "$work/err"
        status=$?
        expect "$name: a closed pipe" 5 '' 'aether: write failed'
    done
    rm -f "$work/told.log"
    "$program" new "$work/told.log" < "$work/balances" >&4 2> "$work/err"
    status=$?
    expect 'new: a closed pipe' 5 '' 'aether: write failed'
    expect_file 'new: a closed pipe' "$work/told.log" "$examples/genesis.log"
    cp "$examples/genesis.log" "$log"
    printf 'pay 0 1 30\n' | "$program" run "$log" >&4 2> "$work/err"
    status=$?
    expect 'run: a closed pipe' 5 '' 'aether: write failed'
    "$program" follow "$log" < <(stream_head 9; end_frame) >&4 2> "$work/err"
    status=$?
    expect 'follow: a closed pipe' 5 '' 'aether: write failed'
    exec 4>&-
    on_file "$log" recover
    expect 'run: a closed pipe, and the log behind it' 0 $'lsn 9\n0 70\n1 30\n' ''
}

# Standard streams that are closed: a log must not get the number of one of them, or the program's text would go into it.
closed_cases() {
    local folder=$work/closed none=/dev/null
    rm -rf "$folder"
    mkdir "$folder"
    "$program" new "$folder/a" <&- > "$work/out" 2> "$work/err"
    status=$?
    expect 'new: a closed input' 4 '' 'aether: read failed'
    expect_file 'new: a closed input' "$folder/a" "$none"
    : > "$work/out"
    "$program" new "$folder/b" < "$work/balances" >&- 2> "$work/err"
    status=$?
    expect 'new: a closed output' 5 '' 'aether: write failed'
    expect_file 'new: a closed output' "$folder/b" "$examples/genesis.log"
    : > "$work/err"
    "$program" new "$folder/c" < "$work/balances" > "$work/out" 2>&-
    status=$?
    expect 'new: a closed error stream' 0 "$genesis_text" ''
    expect_file 'new: a closed error stream' "$folder/c" "$examples/genesis.log"
    "$program" new "$folder/c" < "$work/balances" > "$work/out" 2>&-
    status=$?
    expect 'a log that exists, and a closed error stream' 10 '' ''
    expect_file 'a log that exists, and a closed error stream' "$folder/c" "$examples/genesis.log"
    : > "$work/out"
    "$program" new "$folder/d" < "$work/balances" >&- 2>&-
    status=$?
    expect 'new: both outputs closed' 5 '' ''
    expect_file 'new: both outputs closed' "$folder/d" "$examples/genesis.log"
    "$program" new "$folder/e" <&- >&- 2>&-
    status=$?
    expect 'new: all streams closed' 4 '' ''
    expect_file 'new: all streams closed' "$folder/e" "$none"
    closed_run_cases
}

closed_run_cases() {
    printf 'pay 1 1 5' > "$work/script"
    cp "$examples/genesis.log" "$log"
    "$program" run "$log" <&- > "$work/out" 2> "$work/err"
    status=$?
    expect 'run: a closed input' 4 '' 'aether: read failed'
    : > "$work/out"
    "$program" run "$log" < /dev/null >&- 2> "$work/err"
    status=$?
    expect 'run: a closed output' 5 '' 'aether: write failed'
    : > "$work/err"
    "$program" run "$log" < "$work/script" > "$work/out" 2>&-
    status=$?
    expect 'run: a closed error stream' 3 '' ''
    : > "$work/out"
    "$program" run "$log" < "$work/script" >&- 2>&-
    status=$?
    expect 'run: both outputs closed' 3 '' ''
    "$program" run "$log" < /dev/null >&- 2>&-
    status=$?
    expect 'run: an empty script and both outputs closed' 5 '' ''
    "$program" run "$log" <&- >&- 2>&-
    status=$?
    expect 'run: all streams closed' 4 '' ''
    expect_file 'run: streams that are closed' "$log" "$examples/genesis.log"
    printf 'pay 0 1 30' > "$work/script"
    "$program" run "$log" < "$work/script" >&- 2> "$work/err"
    status=$?
    expect 'run: a transfer and a closed output' 5 '' 'aether: write failed'
    expect_list 'run: a transfer and a closed output' $'4 update 1 0 -30 0\n6 update 1 1 30 0\n8 commit 1 1\nlsn 9\n'
    "$program" run "$log" < "$work/script" > "$work/out" 2>&-
    status=$?
    : > "$work/err"
    expect 'run: a transfer and a closed error stream' 0 $'done 2 14\nlsn 14\n0 40\n1 60\n' ''
    "$program" recover < "$log" > "$work/out" 2>&-
    status=$?
    expect 'recover: a closed error stream' 0 $'lsn 14\n0 40\n1 60\n' ''
}

# Signals and streams: a limit on the length of files, streams that don't block, calls that are interrupted or moved less than was asked.
signal_cases() {
    # Past the limit a write is answered with the signal SIGXFSZ, which ends the program as a kill does; where it is ignored the call fails.
    open_bank 2000
    { (ulimit -c 0 && ulimit -f 16 && exec timeout 600 "$program" run "$log" < "$work/left" 2> "$work/err") | cat > "$work/told"; status=${PIPESTATUS[0]}; } 2> /dev/null
    : > "$work/out"
    expect 'a bank, and a limit on files' 153 '' ''
    judge_bank 'a bank, and a limit on files'
    finish_bank 'a bank, and a limit on files, run on'
    "$program" dump < "$log" > "$work/dumped"
    : > "$work/out"
    { (ulimit -c 0 && ulimit -f 16 && exec timeout 600 "$program" dump < "$log" > "$work/front" 2> "$work/err"); status=$?; } 2> /dev/null
    expect 'dump: a limit on files' 153 '' ''
    expect_front 'dump: a limit on files'
    (trap '' XFSZ && ulimit -f 16 && exec timeout 600 "$program" dump < "$log" > "$work/front" 2> "$work/err")
    status=$?
    expect 'dump: a limit on files, and no signal' 5 '' 'aether: write failed'
    expect_front 'dump: a limit on files, and no signal'
    nonblocking_cases
    call_cases
}

# What stands in the file `front` must be a front of the dump, and not nothing.
expect_front() {
    head -c "$(wc -c < "$work/front")" "$work/dumped" > "$work/wanted"
    expect_file "$1" "$work/front" "$work/wanted"
    [ -s "$work/front" ] || expect_file "$1: nothing is written" "$work/front" "$work/dumped"
}

# Streams that answer at once: an input that has nothing yet can't be read, and an output that is full can't be written.
nonblocking_cases() {
    if ! dd iflag=nonblock oflag=nonblock count=0 < /dev/null > /dev/null 2>&1; then
        echo "built_program: no dd that sets a stream so, nothing of streams that don't block"
        return
    fi
    rm -f "$work/pipe"
    mkfifo "$work/pipe"
    exec 6<> "$work/pipe"
    dd iflag=nonblock count=0 <&6 2> /dev/null
    "$program" recover <&6 > "$work/out" 2> "$work/err"
    status=$?
    expect "recover: an input that doesn't block" 4 '' 'aether: read failed'
    cp "$examples/genesis.log" "$log"
    printf 'pay 0 1 30\n' >&6
    "$program" run "$log" <&6 > "$work/out" 2> "$work/err"
    status=$?
    expect "run: an input that doesn't block" 4 '' 'aether: read failed'
    expect_file "run: an input that doesn't block" "$log" "$examples/genesis.log"

    open_bank 10000
    timeout 600 "$program" run "$log" < "$work/left" >&6 2> "$work/err"
    status=$?
    cat <&6 > "$work/told" 2> /dev/null
    : > "$work/out"
    expect "a bank, and an output that doesn't block" 5 '' 'aether: write failed'
    judge_bank "a bank, and an output that doesn't block"
    finish_bank "a bank, and an output that doesn't block, run on"
    "$program" dump < "$log" > "$work/dumped"
    : > "$work/out"
    "$program" dump < "$log" >&6 2> "$work/err"
    status=$?
    cat <&6 > "$work/front" 2> /dev/null
    expect "dump: an output that doesn't block" 5 '' 'aether: write failed'
    expect_front "dump: an output that doesn't block"
    exec 6<&-
}
