# Files that a program left whose greatest balance was 2147483647: what is read of them is what that program read, byte for byte. Account 1 is full at first
# and at the end, and five transfers are refused for it that would be done today.

before=$work/files_of_before

# The units of that program's log behind its accounts. It wrote them in nine batches.
before_units=(
    0501000100000001
    0602000400000002 72656E7400000000 0202000100000002 FFFFFFF900000000 0202000000000002 0000000700000000
    0202000200000002 FFFFFFFF00000000 0202000000000002 0000000100000000 0301000200000002
    0501000100000003
    0202000200000004 FFFFFFFF00000012 0202000000000004 0000000100000012 0202000000000004 FFFFFFF900000012
    0202000100000004 0000000700000012 0202000100000004 FFFFFFFE00000012 0202000200000004 0000000200000012 0301000300000004
    0401000100000005
    0202000100000006 FFFFFFFF00000020 0202000000000006 0000000100000020 0501000200000006
    0202000100000007 FFFFFFFD00000020 0202000000000007 0000000300000020 0501000200000007
    0202000000000008 FFFFFFFE00000020 0202000100000008 0000000200000020 0301000100000008
    0501000100000009
)

# That program's log, what it made of it by `cut`, `upgrade` and `ship 6`, and the log before its first run.
make_before() {
    local at=0 count
    rm -rf "$before"
    mkdir "$before"
    {
        front_of 100 2147483647 5
        for count in 1 11 1 13 1 5 5 5 1; do
            bytes_of 4F "$(printf '%08x' "$count")" "${before_units[@]:at:count}"
            at=$((at + count))
        done
        bytes_of 00
    } > "$before/run.log"
    { front_of 100 2147483647 5; bytes_of 00; } > "$before/new.log"
    { head_of 49 9 100 48 2147483647 48 5 32; bytes_of 00; } > "$before/cut.log"
    { head_of 6 0 100 0 2147483647 0 5 0; batch_of "${before_units[@]}"; } > "$before/upgraded.log"
    stream_of 6 "${before_units[@]}" > "$before/stream"
}

# A row: the file, a command, the status, and the text or the line, with \n between lines.
before_row_cases() {
    local source words want said at
    while IFS='|' read -r source words want said; do
        # shellcheck disable=SC2086
        on_file "$before/$source.log" $words
        if [ "$want" = 0 ]; then
            expect "$words of $source.log of before" 0 "$(printf '%b' "$said")"$'\n' ''
        else
            expect "$words of $source.log of before" "$want" '' "aether: $said"
        fi
    done << 'END'
run|recover|0|lsn 49\n0 100\n1 2147483647\n2 5
run|asof 0|0|lsn 0
run|asof 2|0|lsn 2\n0 100
run|asof 4|0|lsn 4\n0 100\n1 2147483647
run|asof 8|13|no record boundary at lsn 8
run|asof 50|13|no record boundary at lsn 50
run|statement 0|0|open 100\n18 2 8 108\n32 4 -6 102\n48 8 -2 100\nlsn 49
run|statement 1|0|open 2147483647\n18 2 -7 2147483640\n32 4 5 2147483645\n48 8 2 2147483647\nlsn 49
run|statement 2|0|open 5\n18 2 -1 4\n32 4 1 5\nlsn 49
run|statement 3|15|no account 3
upgraded|recover|0|lsn 49\n0 100\n1 2147483647\n2 5
upgraded|statement 0|0|open 100\n18 2 8 108\n32 4 -6 102\n48 8 -2 100\nlsn 49
upgraded|statement 1|0|open 2147483647\n18 2 -7 2147483640\n32 4 5 2147483645\n48 8 2 2147483647\nlsn 49
upgraded|statement 2|0|open 5\n18 2 -1 4\n32 4 1 5\nlsn 49
upgraded|statement 3|15|no account 3
cut|recover|0|lsn 49\n0 100\n1 2147483647\n2 5
cut|dump|0|snapshot 49 9\naccount 0 100 48\naccount 1 2147483647 48\naccount 2 5 32\nlsn 49
cut|statement 0|0|open 100\nlsn 49
cut|statement 1|0|open 2147483647\nlsn 49
cut|statement 2|0|open 5\nlsn 49
cut|statement 3|15|no account 3
cut|asof 6|13|no record boundary at lsn 6
cut|asof 49|0|lsn 49\n0 100\n1 2147483647\n2 5
END
    # The boundaries of the list behind its accounts, each with the accounts as they were there.
    while IFS='|' read -r words said; do
        for at in $words; do
            for source in run upgraded; do
                on_file "$before/$source.log" asof "$at"
                expect "asof $at of $source.log of before" 0 "lsn $at"$'\n'"$(printf '%b' "$said")"$'\n' ''
            done
        done
    done << 'END'
6 7 9 11 13 15 17|0 100\n1 2147483647\n2 5
18 19 21 23 25 27 29 31|0 108\n1 2147483640\n2 4
32 33 35 37 38 40 42 43 45 47|0 102\n1 2147483645\n2 5
48 49|0 100\n1 2147483647\n2 5
END
}

before_dump_cases() {
    local records='6 over 1 1
7 note 2 rent
9 update 2 1 -7 0
11 update 2 0 7 0
13 update 2 2 -1 0
15 update 2 0 1 0
17 commit 2 2
18 over 3 1
19 update 4 2 -1 18
21 update 4 0 1 18
23 update 4 0 -7 18
25 update 4 1 7 18
27 update 4 1 -2 18
29 update 4 2 2 18
31 commit 4 3
32 short 5 1
33 update 6 1 -1 32
35 update 6 0 1 32
37 over 6 2
38 update 7 1 -3 32
40 update 7 0 3 32
42 over 7 2
43 update 8 0 -2 32
45 update 8 1 2 32
47 commit 8 1
48 over 9 1
lsn 49
'
    on_file "$before/run.log" dump
    expect 'dump of run.log of before' 0 $'0 genesis 0 100\n2 genesis 1 2147483647\n4 genesis 2 5\n'"$records" ''
    on_file "$before/upgraded.log" dump
    expect 'dump of upgraded.log of before' 0 $'snapshot 6 0\naccount 0 100 0\naccount 1 2147483647 0\naccount 2 5 0\n'"$records" ''
}

# The same files are made, the same stream is shipped, and followed.
before_file_cases() {
    local text=$'lsn 49\n0 100\n1 2147483647\n2 5\n' source
    for source in run upgraded cut; do
        expect_made "cut of $source.log of before" cut "$before/$source.log" "$text" "$before/cut.log"
        [ "$source" = cut ] || expect_made "upgrade of $source.log of before" upgrade "$before/$source.log" "$text" "$before/upgraded.log"
        [ "$source" = cut ] || shipped "$before/$source.log" 6 "$(od -An -v -tx1 "$before/stream" | tr -d '\n')"
    done
    expect_made 'upgrade of cut.log of before' upgrade "$before/cut.log" "$text" "$before/cut.log"
    cp "$before/new.log" "$log"
    on_file "$before/stream" follow "$log"
    expect 'follow of a stream of before' 0 "$text" ''
    on_file "$log" dump
    cp "$work/out" "$work/told"
    expect_file 'follow of a stream of before, and the list' "$work/told" <("$program" dump < "$before/run.log")
    rm -f "$log"
    printf '100\n2147483647\n5\n' > "$work/script"
    on_file "$work/script" new "$log"
    expect_file 'new of the balances of before' "$log" "$before/new.log"
}

# A run goes on as that program would, but where a balance passes what was the greatest.
before_run_cases() {
    local source
    for source in run upgraded cut; do
        run_on "$before/$source.log" $'pay 1 0 5\npay 0 2 3 : on\npay 2 1 99\n' --workers 1
        expect "run on $source.log of before" 0 $'done 10 54\ndone 11 61\nshort 12 1 62\nlsn 62\n0 102\n1 2147483642\n2 8\n' ''
        "$program" dump < "$log" | tail -n 9 > "$work/out"
        expect "run on $source.log of before, and the list" 0 $'49 update 10 1 -5 48\n51 update 10 0 5 48\n53 commit 10 1\n54 note 11 on
56 update 11 0 -3 54\n58 update 11 2 3 32\n60 commit 11 1\n61 short 12 1\nlsn 62\n' ''
        run_on "$before/$source.log" 'pay 0 1 1' --workers 1
        expect "run to a wider balance on $source.log of before" 0 $'done 10 54\nlsn 54\n0 99\n1 2147483648\n2 5\n' ''
    done
}

before_cases() {
    make_before
    before_row_cases
    before_dump_cases
    before_file_cases
    before_run_cases
}
