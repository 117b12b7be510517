# What is left of a script behind runs that are killed: examples/rest, and the manual's join of ids.

# Runs `examples/rest` on these, as `on_file` runs the program.
rest_of() {
    AETHER=$program "$examples/rest" "$@" > "$work/out" 2> "$work/err"
    status=$?
}

# Runs the script on the bank with eight workers, and kills it once so many lines are read of it. Nobody reads more meanwhile, so it can't have ended. All
# lines that it wrote go to $work/lines_told.
kill_eight() {
    local name=$1 count=$2 child line
    shift 2
    rm -f "$work/pipe"
    mkfifo "$work/pipe"
    "$program" run "$work/recipe/bank.log" --workers 8 --ring 1024 "$@" < "$work/recipe/script" > "$work/pipe" 2> /dev/null &
    child=$!
    exec 3< "$work/pipe"
    while [ "$count" -gt 0 ] && read -r -t 600 line <&3; do
        echo "$line"
        count=$((count - 1))
    done >> "$work/lines_told"
    kill -KILL "$child" 2> /dev/null
    wait "$child" 2> /dev/null
    expect_true "$name: killed, status $?" [ "$?" = 137 ]
    cat <&3 >> "$work/lines_told"
    exec 3<&-
}

# Every transfer has ended once, every line that was written has its record, and the sum of the balances is what it was: so small a one that awk has it exactly.
judge_rest() {
    local name=$1
    "$program" dump < "$work/recipe/bank.log" > "$work/dump"
    awk '$2 == "note" { id[$3] = $4 } $2 == "commit" || $2 == "short" { print id[$3] }' "$work/dump" | sort -t d -k 2n > "$work/ids"
    seq -f id%.0f 60000 > "$work/wanted"
    expect_file "$name: each transfer once" "$work/ids" "$work/wanted"
    awk '$2 == "commit" { printf "done %s %.0f\n", $3, $1 + 1 } $2 == "short" { printf "short %s %s %.0f\n", $3, $4, $1 + 1 }' "$work/dump" > "$work/lines"
    grep -E '^(done|short) [0-9 ]+$' "$work/lines_told" | grep -vxFf "$work/lines" > "$work/untrue"
    expect_file "$name: what was told" "$work/untrue" /dev/null
    expect_true "$name: the sum" [ "$("$program" recover < "$work/recipe/bank.log" | awk 'NR > 1 { sum += $2 } END { print sum }')" = 10000 ]
}

# A dozen kills of eight workers, each time on with what `rest` leaves, which the join of ids leaves too.
kill_rest_cases() {
    local at=$work/recipe count place=0 options
    recipe_folder
    recipe 'What is left of a script' | tail -n 2 > "$work/join.sh"
    transfers 60000 | awk '{ print $0 " : id" NR }' > "$at/script"
    rm -f "$at/bank.log" "$work/lines_told"
    yes 1000 | head -n 10 | "$program" new "$at/bank.log" > /dev/null
    for count in 1 2 5 10 50 100 200 500 1 100 300 1000; do
        place=$((place + 1))
        options=
        [ $((place % 4)) != 0 ] || options=--wait
        cp "$at/bank.log" "$at/before.log"
        # shellcheck disable=SC2086
        kill_eight "rest: kill $place" "$count" $options
        rest_of "$at/before.log" "$at/bank.log" "$at/script"
        cp "$work/out" "$work/left"
        : > "$work/out"
        expect "rest: kill $place" 0 '' ''
        (cd "$at" && bash -e "$work/join.sh")
        expect_file "rest: kill $place, the join of ids" "$at/left" "$work/left"
        cp "$work/left" "$at/script"
    done
    expect_true "rest: $(wc -l < "$at/script") transfers are left" [ "$(wc -l < "$at/script")" -gt 0 ]
    cp "$at/bank.log" "$at/before.log"
    "$program" run "$at/bank.log" --workers 8 < "$at/script" >> "$work/lines_told"
    rest_of "$at/before.log" "$at/bank.log" "$at/script"
    expect 'rest: nothing is left' 0 '' ''
    judge_rest 'rest: a dozen kills'
}

rest_cases() {
    printf '\npay 0 1 30\n\npay 0 1 1\npay 1 0 1' > "$work/script"
    rest_of "$examples/genesis.log" "$examples/one_transfer.log" "$work/script"
    expect 'rest: the first has ended' 0 $'pay 0 1 1\npay 1 0 1\n' ''
    rest_of "$examples/genesis.log" "$examples/genesis.log" "$work/script"
    expect 'rest: none has ended' 0 $'pay 0 1 30\npay 0 1 1\npay 1 0 1\n' ''
    rest_of "$examples/one_transfer.log" "$examples/genesis.log" "$work/script"
    expect 'rest: another log' 1 '' "rest: $examples/genesis.log doesn't go on from $examples/one_transfer.log"
    rest_of "$examples/README.md" "$examples/genesis.log" "$work/script"
    expect 'rest: no log' 7 '' 'aether: not a log'
    # Numbers go on behind a transfer without an end, behind a head, and up to the greatest.
    printf 'pay 0 1 1\npay 0 1 200\n' > "$work/begun"
    for file in unfinished_transfer cut upgraded; do
        cp "$examples/$file.log" "$work/before.log"
        cp "$examples/$file.log" "$log"
        "$program" run "$log" --workers 1 < "$work/begun" > /dev/null
        rest_of "$work/before.log" "$log" "$work/script"
        expect "rest: behind $file.log" 0 $'pay 1 0 1\n' ''
    done
    bytes_of 4F41455448455232 00000009 FFFFFFFC 00000002 0000000000000064 00000000 0000000000000000 00000000 00 > "$work/before.log"
    cp "$work/before.log" "$log"
    "$program" run "$log" --workers 1 < "$work/begun" > /dev/null
    rest_of "$work/before.log" "$log" "$work/script"
    expect 'rest: the greatest numbers' 0 $'pay 1 0 1\n' ''
    kill_rest_cases
}
