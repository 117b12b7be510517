# Logs that are refused, by each command that reads one.

# The log in $work/bad must be refused so, by `recover` and by `run`, which leaves it as it is and looks at no script, by those which would
# make another log of it, by those which tell of it, and by `follow`, which leaves it as it is and looks at no stream.
expect_bad() {
    local command
    on_file "$work/bad" recover
    expect "recover: $1" 7 '' "aether: $1"
    run_on "$work/bad" 'no script'
    expect "run: $1" 7 '' "aether: $1"
    expect_file "run: $1" "$log" "$work/bad"
    for command in cut upgrade; do
        rm -f "$work/refused.log"
        on_file "$work/bad" "$command" "$work/refused.log"
        expect "$command: $1" 7 '' "aether: $1"
        expect_file "$command: $1" "$work/refused.log" /dev/null
    done
    for command in 'ship 4' 'asof 4' 'statement 0'; do
        # shellcheck disable=SC2086
        on_file "$work/bad" $command
        expect "$command: $1" 7 '' "aether: $1"
    done
    cp "$work/bad" "$log"
    on_file /dev/null follow "$log"
    expect "follow: $1" 7 '' "aether: $1"
    expect_file "follow: $1" "$log" "$work/bad"
}

# Logs that are refused, besides those of `.ci/hostile_tables`.
refused_log_cases() {
    local script count
    cp "$examples/README.md" "$work/bad"
    expect_bad 'not a log'
    : > "$work/bad"
    expect_bad 'not a log'
    head -c 60 "$examples/one_transfer.log" > "$work/bad"
    expect_bad 'bad batch at byte 44'
    log_of > "$work/bad"
    expect_bad 'bad batch at byte 44'
    log_of 0000000000000000 > "$work/bad"
    expect_bad 'bad record at lsn 4'
    log_of 0202000000000001 FFFFFFE200000000 0202000000000001 > "$work/bad"
    expect_bad 'bad record at lsn 6'
    log_of 0102000300000000 0000000000000005 > "$work/bad"
    expect_bad 'unlawful record at lsn 4: genesis'
    cp "$examples/wrong_predecessor.log" "$work/bad"
    expect_bad 'unlawful record at lsn 4: prev'

    # Status 9. Status 8 takes a log of 34 gigabytes, or one of the second format (`end_cases`).
    for script in '' 'pay 0 1 30' 'no script'; do
        run_on "$examples/greatest_transaction.log" "$script"
        if [ "$script" = 'no script' ]; then
            expect 'run: a bad line and no transaction number' 3 '' 'aether: line 1 refused'
        else
            count=$((${#script} > 0))
            expect 'run: no transaction number left' 9 '' "aether: transaction numbers end: first 4294967296, count $count"
        fi
        expect_file 'run: no transaction number left' "$log" "$examples/greatest_transaction.log"
    done
}
