# Balances up to 4611686018427387903, which is 2^62 - 1, and files of programs whose greatest balance was 2147483647. What is refused is in `.ci/hostile_tables`.

most=4611686018427387903

# The first batch of a log of these balances, of one to 4096 accounts.
front_of() {
    local account=0 units=() balance
    for balance in "$@"; do
        units+=("$(printf '0102%04x00000000%016x' "$account" "$balance")")
        account=$((account + 1))
    done
    bytes_of 4F41455448455231 "$(printf '%08x' $((2 * $#)))" "${units[@]}"
}

# A row: balances, a script of one worker, and what it tells, with \n between lines. `recover` then says the same of the accounts.
outcome_cases() {
    local balances script text
    while IFS='|' read -r balances script text; do
        rm -f "$log"
        printf '%b' "$balances" | "$program" new "$log" > /dev/null
        printf '%b' "$script" > "$work/script"
        on_file "$work/script" run "$log" --workers 1
        expect "$script on $balances" 0 "$(printf '%b' "$text")"$'\n' ''
        on_file "$log" recover
        expect "$script on $balances, and the log" 0 "$(printf '%b' "$text" | sed -n '/^lsn /,$p')"$'\n' ''
    done << 'END'
100\n2147483647|pay 0 1 1|done 1 9\nlsn 9\n0 99\n1 2147483648
100\n4611686018427387903|pay 0 1 1|over 1 1 5\nlsn 5\n0 100\n1 4611686018427387903
100\n4611686018427387902|pay 0 1 1|done 1 9\nlsn 9\n0 99\n1 4611686018427387903
2147483647\n2464903903244140256|pay 0 1 2147483647|done 1 9\nlsn 9\n0 0\n1 2464903905391623903
2147483647\n4611686016279904256|pay 0 1 2147483647|done 1 9\nlsn 9\n0 0\n1 4611686018427387903
2147483647\n4611686016279904257|pay 0 1 2147483647|over 1 1 5\nlsn 5\n0 2147483647\n1 4611686016279904257
4294967301\n0|pay 0 1 10|done 1 9\nlsn 9\n0 4294967291\n1 10
4611686018427387902\n100|pay 1 0 1 1 0 1|over 1 2 9\nlsn 9\n0 4611686018427387902\n1 100
4611686018427387903\n100|pay 1 0 5 0 1 5\npay 0 1 5 1 0 5|over 1 1 5\ndone 2 14\nlsn 14\n0 4611686018427387903\n1 100
END
    # On the log of an account that is full.
    rm -f "$log"
    printf '100\n%s\n' "$most" | "$program" new "$log" > /dev/null
    printf 'pay 0 1 1\n' | "$program" run "$log" > /dev/null
    printf 'pay 1 0 2147483647\npay 1 0 2147483647\npay 0 1 2147483647\n' > "$work/script"
    on_file "$work/script" run "$log" --workers 1
    expect 'an account that was full' 0 $'done 2 10\ndone 3 15\ndone 4 20\nlsn 20\n0 2147483747\n1 4611686016279904256\n' ''
}

# Balances above 2^31, 2^32 and 2^53 stay what they are, digit for digit, through each command.
digit_cases() {
    local text=$'lsn 6\n0 4294967296\n1 2147483648\n2 9007199254740993\n' command
    rm -f "$log"
    printf '4294967296\n2147483648\n9007199254740993\n' > "$work/digits"
    on_file "$work/digits" new "$log"
    expect 'new of wide balances' 0 "$text" ''
    { front_of 4294967296 2147483648 9007199254740993; printf '\0'; } > "$work/want"
    expect_file 'new of wide balances' "$log" "$work/want"
    cp "$log" "$work/wide.log"
    for command in recover 'asof 6'; do
        # shellcheck disable=SC2086
        on_file "$work/wide.log" $command
        expect "$command of wide balances" 0 "$text" ''
    done
    on_file "$work/wide.log" dump
    expect 'dump of wide balances' 0 $'0 genesis 0 4294967296\n2 genesis 1 2147483648\n4 genesis 2 9007199254740993\nlsn 6\n' ''
    shipped "$work/wide.log" 0 "41455348495031 00000000 00000006 0102000000000000 0000000100000000 0102000100000000 0000000080000000 \
        0102000200000000 0020000000000001 00000000"
    { head_of 6 0 4294967296 0 2147483648 0 9007199254740993 0; printf '\0'; } > "$work/want"
    for command in cut upgrade; do
        expect_made "$command of wide balances" "$command" "$work/wide.log" "$text" "$work/want"
    done
    on_file "$work/want" dump
    expect 'dump of a head with wide balances' 0 $'snapshot 6 0\naccount 0 4294967296 0\naccount 1 2147483648 0\naccount 2 9007199254740993 0\nlsn 6\n' ''
    for command in wide.log want; do
        run_on "$work/$command" 'pay 0 1 1' --workers 1
        on_file "$log" statement 0
        expect "statement of a wide balance, $command" 0 $'open 4294967296\n11 1 -1 4294967295\nlsn 11\n' ''
        "$program" ship 6 < "$log" > "$work/stream"
        cp "$work/$command" "$work/standby.log"
        on_file "$work/stream" follow "$work/standby.log"
        expect "follow with wide balances, $command" 0 $'lsn 11\n0 4294967295\n1 2147483649\n2 9007199254740993\n' ''
    done
}

# Lists by bytes: account 0 has the greatest balance, and account 1 has 100. What counts are the balances after a Commit.
list_cases() {
    local to_0=(0202000100000001 FFFFFFF900000000 0202000000000001 0000000700000000)
    local to_1=(0202000000000001 FFFFFFF900000000 0202000100000001 0000000700000000)
    { front_of "$most" 100; batch_of "${to_0[@]}" "${to_1[@]}" 0301000200000001; } > "$work/list"
    on_file "$work/list" recover
    expect 'there and back at the greatest balance' 0 $'lsn 13\n0 4611686018427387903\n1 100\n' ''
    on_file "$work/list" statement 0
    expect 'a statement of there and back at the greatest balance' 0 $'open 4611686018427387903\n13 1 0 4611686018427387903\nlsn 13\n' ''
    { front_of "$most" 100; batch_of "${to_0[@]}" 0301000100000001; } > "$work/bad"
    expect_bad 'unlawful record at lsn 8: balance'
    { front_of $((most - 6)) 100; batch_of "${to_0[@]}" 0301000100000001; } > "$work/bad"
    expect_bad 'unlawful record at lsn 8: balance'
    { front_of $((most - 7)) 100; batch_of "${to_0[@]}" 0301000100000001; } > "$work/list"
    on_file "$work/list" recover
    expect 'a Commit up to the greatest balance' 0 $'lsn 9\n0 4611686018427387903\n1 93\n' ''
    # Behind a head.
    { head_of 9 0 100 9 $((most - 29)) 9; batch_of "${thirty_units[@]/%00000000/00000009}"; } > "$work/bad"
    expect_bad 'unlawful record at lsn 13: balance'
    { head_of 9 0 100 9 $((most - 30)) 9; batch_of "${thirty_units[@]/%00000000/00000009}"; } > "$work/headed"
    on_file "$work/headed" recover
    expect 'a Commit up to the greatest balance, behind a head' 0 $'lsn 14\n0 70\n1 4611686018427387903\n' ''
    # The same records by a stream.
    stream_of 4 "${to_0[@]}" 0301000100000001 > "$work/stream"
    { front_of "$most" 100; printf '\0'; } > "$log"
    cp "$log" "$work/want"
    on_file "$work/stream" follow "$log"
    expect 'a stream to above the greatest balance' 14 '' 'aether: unlawful stream record at lsn 8: balance'
    expect_file 'a stream to above the greatest balance' "$log" "$work/want"
    { front_of $((most - 7)) 100; printf '\0'; } > "$log"
    on_file "$work/stream" follow "$log"
    expect 'a stream up to the greatest balance' 0 $'lsn 9\n0 4611686018427387903\n1 93\n' ''
    expect_file 'a stream up to the greatest balance' "$log" "$work/list"
}

# 4096 accounts with the greatest balance, but account 4094 has one less.
full_account_cases() {
    local command full=$work/full_bank.log text=$work/full_text
    seq 0 4095 | sed "s/.*/$most/; 4095s/3\$/2/" > "$work/full_balances"
    # The accounts text but for its first line.
    seq 0 4095 | paste -d ' ' - "$work/full_balances" > "$text"
    rm -f "$full" "$made"
    on_file "$work/full_balances" new "$full"
    expect_text 'new of full accounts' <(echo 'lsn 8192' | cat - "$text")
    for command in recover 'asof 8192' cut upgrade; do
        rm -f "$made"
        # shellcheck disable=SC2086
        case $command in cut | upgrade) on_file "$full" "$command" "$made" ;; *) on_file "$full" $command ;; esac
        expect_text "$command of full accounts" <(echo 'lsn 8192' | cat - "$text")
    done
    on_file "$full" dump
    expect_text 'dump of full accounts' <(awk '{ print 2 * $1, "genesis", $0 } END { print "lsn 8192" }' "$text")
    on_file "$made" dump
    expect_text 'dump of full accounts in a head' <(awk 'BEGIN { print "snapshot 8192 0" } { print "account", $0, 0 } END { print "lsn 8192" }' "$text")
    for command in 4095:3 4094:2; do
        on_file "$made" statement "${command%:*}"
        expect "statement ${command%:*} of full accounts" 0 "open 461168601842738790${command#*:}"$'\nlsn 8192\n' ''
    done
    for command in "$full" "$made"; do
        run_on "$command" $'pay 0 1 1\npay 4095 4094 1\n' --workers 1
        expect_text "run on full accounts, ${command##*/}" \
            <({ printf 'over 1 1 8193\ndone 2 8198\nlsn 8198\n'; sed '4095s/2$/3/; 4096s/3$/2/' "$text"; })
        on_file "$log" statement 4095
        expect "statement of a full account, ${command##*/}" 0 $'open 4611686018427387903\n8198 2 -1 4611686018427387902\nlsn 8198\n' ''
        "$program" ship 8192 < "$log" > "$work/stream"
        cp "$command" "$work/standby.log"
        on_file "$work/stream" follow "$work/standby.log"
        expect_text "follow of full accounts, ${command##*/}" <("$program" recover < "$log")
    done
    rm -f "$full" "$made"
}

# The last run has told what this file holds, and no fault.
expect_text() {
    mv "$work/out" "$work/told"
    : > "$work/out"
    expect "$1" 0 '' ''
    expect_file "$1" "$work/told" "$2"
}

# So many transfers between this many accounts, of amounts up to 2147483647; every third is of at most 500.
wide_transfers() {
    awk -v count="$1" -v accounts="$2" 'BEGIN {
        x = 7
        for (i = 0; i < count; i++) {
            x = (75 * x + 74) % 65537
            payer = x % accounts
            x = (75 * x + 74) % 65537
            printf "pay %d %d %.0f\n", payer, (payer + 1 + x % (accounts - 1)) % accounts, i % 3 == 0 ? 1 + x % 500 : 1 + x * 32767
        }
    }'
}

# A run on the full accounts that is killed, and run on.
full_bank_cases() {
    wide_transfers 11000 4096 > "$work/left"
    open_bank_of "$work/full_balances"
    kill_bank 'full accounts, killed' 200 KILL --workers 16
    finish_bank 'full accounts, killed, run on' --workers 4
    expect_sum 'full accounts, killed and run on' "$work/full_balances"
}

# The balances of the log sum to what these are. The shell counts up to 2^63, and awk exactly up to 2^53.
expect_sum() {
    "$program" recover < "$log" | sed 1d > "$work/accounts"
    expect_true "$1: the sum of the balances" \
        python3 -c 'import sys; a, b = ([int(line.split()[-1]) for line in open(name)] for name in sys.argv[1:]); sys.exit(sum(a) != sum(b))' "$work/accounts" "$2"
}

# A bank in cents, with a state's debt on account 0: workers, waits, kills, cuts, and a standby.
cents_cases() {
    local cents=$work/cents standby=$work/cents_standby.log options
    printf '%s\n' 4611686013427387903 9007199254740993 4294967296 1234567890123456 100 0 31536000000000000 2147483648 999999999999 5 > "$cents"
    for options in '--workers 1' '--workers 16' '--workers 16 --ring 1024 --slots 16'; do
        wide_transfers 2000 10 > "$work/left"
        open_bank_of "$cents"
        # shellcheck disable=SC2086
        finish_bank "a bank in cents, $options" $options
        expect_sum "a bank in cents, $options" "$cents"
    done
    wide_transfers 100 10 > "$work/left"
    open_bank_of "$cents"
    finish_bank 'a bank in cents, --wait' --workers 16 --wait
    expect_sum 'a bank in cents, --wait' "$cents"
    wide_transfers 11000 10 > "$work/left"
    open_bank_of "$cents"
    cp "$log" "$standby"
    kill_bank 'a bank in cents, killed' 300 KILL --workers 16
    expect_sum 'a bank in cents, killed' "$cents"
    "$program" ship 20 < "$log" | "$program" follow "$standby" > "$work/told" 2> "$work/err"
    expect_file 'a standby of a bank in cents' "$work/told" <("$program" recover < "$log")
    remade_bank cut
    finish_bank 'a bank in cents, cut and run on' --workers 16
    expect_sum 'a bank in cents, cut and run on' "$cents"
    "$program" ship "$("$program" recover < "$standby" | sed -n 's/^lsn //p')" < "$log" | "$program" follow "$standby" > "$work/told" 2> "$work/err"
    expect_file 'a standby of a cut bank in cents' "$work/told" <("$program" recover < "$log")
    remade_bank upgrade
    expect_sum 'a bank in cents, upgraded' "$cents"
    near_bound_cases
}

# Two accounts near the greatest balance, and four workers that pay there and back.
near_bound_cases() {
    printf '4611686018427387000\n4611686018427387000\n' > "$work/near_bound"
    awk 'BEGIN { x = 7; for (i = 0; i < 10000; i++) { x = (75 * x + 74) % 65537; print "pay", x % 2, 1 - x % 2, 1 + int(x / 90) % 500 } }' > "$work/left"
    open_bank_of "$work/near_bound"
    finish_bank 'two accounts near the greatest balance' --workers 4
    expect_sum 'two accounts near the greatest balance' "$work/near_bound"
    expect_true 'two accounts near the greatest balance: both ways to end' \
        [ "$(awk '$2 == "commit" || $2 == "over" { kinds[$2] } END { for (kind in kinds) print kind }' "$work/dump" | sort | tr '\n' ' ')" = 'commit over ' ]
}

balance_cases() {
    outcome_cases
    digit_cases
    list_cases
    full_account_cases
    before_cases
    if command -v python3 > /dev/null; then
        full_bank_cases
        cents_cases
    fi
}
