# The command `run`: scripts that are done, and scripts that are refused.

# Scripts that are done, and what they leave.
run_cases() {
    local options two_orders tail name
    for options in '--workers 1' '--workers 2' '--workers 3' '--workers 4' '--workers=16' '--workers=1 --wait' '--wait' '--workers 16 --wait' \
        '--ring 1024 --slots 0' '--slots 1' '--slots 16' '--workers 16 --slots 16 --ring 1024' '--ring 1048576' ''; do
        # shellcheck disable=SC2086
        run_on "$examples/genesis.log" $'pay 0 1 30\n' $options
        expect "run $options" 0 $'done 1 9\nlsn 9\n0 70\n1 30\n' ''
        # In how many batches the list stands is not told.
        expect_list "run $options" $'4 update 1 0 -30 0\n6 update 1 1 30 0\n8 commit 1 1\nlsn 9\n'
        on_file "$log" recover
        expect "recover on what run $options left" 0 $'lsn 9\n0 70\n1 30\n' ''
    done
    run_on "$examples/genesis.log" $'pay 0 1 30\npay 1 0 30\n' --workers 1
    expect 'run: there and back' 0 $'done 1 9\ndone 2 14\nlsn 14\n0 100\n1 0\n' ''
    expect_list 'run: there and back' \
        $'4 update 1 0 -30 0\n6 update 1 1 30 0\n8 commit 1 1\n9 update 2 1 -30 9\n11 update 2 0 30 9\n13 commit 2 1\nlsn 14\n'
    run_on "$examples/genesis.log" $'pay 0 1 30\npay 1 0 50\n' --workers 1
    expect 'run: a transfer and a refusal' 0 $'done 1 9\nshort 2 1 10\nlsn 10\n0 70\n1 30\n' ''
    run_on "$examples/genesis.log" 'pay 0 1 60 1 0 200' --workers 1
    expect 'run: short at the second leg' 0 $'short 1 2 9\nlsn 9\n0 100\n1 0\n' ''
    expect_list 'run: short at the second leg' $'4 update 1 0 -60 0\n6 update 1 1 60 0\n8 short 1 2\nlsn 9\n'
    run_on "$examples/genesis.log" 'pay 0 1 9 1 0 8 0 1 7 1 0 6 0 1 5 1 0 4 0 1 3 1 0 2 : eight legs' --workers 1
    expect 'run: eight legs and a note' 0 $'done 1 40\nlsn 40\n0 96\n1 4\n' ''
    run_on "$examples/genesis.log" "pay 0 1 30 : $(yes x | head -n 200 | tr -d '\n')" --workers 1
    expect 'run: the longest note' 0 $'done 1 35\nlsn 35\n0 70\n1 30\n' ''
    run_on "$examples/genesis.log" 'pay 0 1 5 : : ~' --workers 1
    expect 'run: a short note' 0 $'done 1 11\nlsn 11\n0 95\n1 5\n' ''
    expect_list 'run: a short note' $'4 note 1 : ~\n6 update 1 0 -5 0\n8 update 1 1 5 0\n10 commit 1 1\nlsn 11\n'
    run_on "$examples/unfinished_transfer.log" 'pay 0 1 10' --workers 1
    expect 'run: behind an unfinished transfer' 0 $'done 8 13\nlsn 13\n0 90\n1 10\n' ''
    rm -f "$log"
    printf '100\n4611686018427387903\n' > "$work/balances_full"
    on_file "$work/balances_full" new "$log"
    printf 'pay 0 1 1' > "$work/script"
    on_file "$work/script" run "$log"
    expect 'run: an account that is full' 0 $'over 1 1 5\nlsn 5\n0 100\n1 4611686018427387903\n' ''

    for options in 1 2 3 4 16; do
        run_on "$examples/genesis.log" $'pay 0 1 30\npay 0 1 80\n' --workers "$options"
        two_orders=$'done 1 9\nshort 2 1 10\nlsn 10\n0 70\n1 30\n'
        if [ "$options" != 1 ] && [ "$(head -c 6 "$work/out")" = 'done 2' ]; then
            two_orders=$'done 2 9\nshort 1 1 10\nlsn 10\n0 20\n1 80\n'
        fi
        expect "run: either of two orders, --workers $options" 0 "$two_orders" ''
    done
    crowd_cases

    # Empty scripts, empty lines, a last line without its end, and an input that comes in pieces.
    run_on "$examples/genesis.log" ''
    expect 'run: an empty script' 0 "$genesis_text" ''
    expect_file 'run: an empty script' "$log" "$examples/genesis.log"
    run_on "$examples/genesis.log" $'\n\n\npay 0 1 30' --workers 1
    expect 'run: empty lines' 0 $'done 1 9\nlsn 9\n0 70\n1 30\n' ''
    yes '' | head -n 16000 > "$work/empty_lines"
    cp "$examples/genesis.log" "$log"
    on_file "$work/empty_lines" run "$log"
    expect 'run: empty lines alone' 0 "$genesis_text" ''
    expect_file 'run: empty lines alone' "$log" "$examples/genesis.log"
    { cat "$work/empty_lines"; printf 'pay 0 1 30'; } > "$work/script"
    on_file "$work/script" run "$log" --workers 2
    expect 'run: many empty lines and a transfer' 0 $'done 1 9\nlsn 9\n0 70\n1 30\n' ''
    cp "$examples/genesis.log" "$log"
    { printf 'pay 0 1 3'; sleep 0.1; printf '0\npay 1 '; sleep 0.1; printf '0 50'; } | "$program" run "$log" --workers 1 > "$work/out" 2> "$work/err"
    status=$?
    expect 'run: an input in pieces' 0 $'done 1 9\nshort 2 1 10\nlsn 10\n0 70\n1 30\n' ''

    # What may stand at the end of a log.
    head -c 44 "$examples/genesis.log" > "$work/front"
    printf '\x4f' | cat "$work/front" - > "$work/lone_gate"
    { cat "$examples/genesis.log"; head -c 2000 /dev/zero | tr '\0' 'O'; } > "$work/behind"
    for tail in front lone_gate behind; do
        run_on "$work/$tail" 'pay 0 1 30'
        expect "run: $tail" 0 $'done 1 9\nlsn 9\n0 70\n1 30\n' ''
        expect_list "run: $tail" $'4 update 1 0 -30 0\n6 update 1 1 30 0\n8 commit 1 1\nlsn 9\n'
    done
    for tail in front lone_gate; do
        run_on "$work/$tail" ''
        expect "run: $tail and an empty script" 0 "$genesis_text" ''
        expect_file "run: $tail and an empty script" "$log" "$examples/genesis.log"
    done

    # Names of logs.
    rm -rf "$work/names"
    mkdir "$work/names"
    for name in '-x.log' 'a log' 'bücher.log' $'two\nlines'; do
        cp "$examples/genesis.log" "$work/names/$name"
        (cd "$work/names" && printf 'pay 0 1 30' | "$program" run -- "$name" > "$work/out" 2> "$work/err")
        status=$?
        expect "run: the name '$name'" 0 $'done 1 9\nlsn 9\n0 70\n1 30\n' ''
    done
    ln -s -- 'a log' "$work/names/link"
    printf 'pay 1 0 30' > "$work/script"
    on_file "$work/script" run "$work/names/link"
    expect 'run: a link' 0 $'done 2 14\nlsn 14\n0 100\n1 0\n' ''
}

# As many workers and slots as there may be: 64 transfers with the longest note, in whatever order, and a script for which there are too many of them.
crowd_cases() {
    yes "pay 0 1 1 : $(yes x | head -n 200 | tr -d '\n')" | head -n 64 > "$work/script"
    cp "$examples/genesis.log" "$log"
    on_file "$work/script" run "$log" --workers 16 --ring 1024 --slots 16
    sed -n 's/^done \([0-9]*\) [0-9]*$/\1/p' "$work/out" | sort -n > "$work/numbers"
    seq 64 > "$work/wanted"
    expect_file 'run: 64 transfers with notes, each told once' "$work/numbers" "$work/wanted"
    sed -i '/^done /d' "$work/out"
    expect 'run: 64 transfers with notes' 0 $'lsn 1988\n0 36\n1 64\n' ''
    run_on "$examples/genesis.log" '' --workers 16
    expect 'run: an empty script and 16 workers' 0 "$genesis_text" ''
    expect_file 'run: an empty script and 16 workers' "$log" "$examples/genesis.log"
}

# Scripts that are refused, besides those of `.ci/hostile_tables`: nothing is done of them, and no byte of the log is changed.
refused_script_cases() {
    local line
    for line in 'pay 1 1 5' ' pay 0 1 5' 'pay 0 1 5 :' 'pay 4096 1 5' 'pay 0 1 -5' 'pay 0 1 +5' 'pay' ' ' 'sum 0' $'pay 0 1 5 : \t' \
        'pay 0 1 5 : bücher' "pay 0 1 30 : $(yes x | head -n 201 | tr -d '\n')"; do
        run_on "$examples/genesis.log" $'pay 0 1 30\n\n'"$line"
        expect "run: the last line '$line'" 3 '' 'aether: line 3 refused'
        expect_file "run: the last line '$line'" "$log" "$examples/genesis.log"
    done
    run_on "$examples/genesis.log" $'pay 0 1 5\nno\nneither\npay 0 1 5\n'
    expect 'run: the first of two bad lines' 3 '' 'aether: line 2 refused'
    { cat "$work/empty_lines"; printf 'pay 0 1 30 \n'; } > "$work/script"
    on_file "$work/script" run "$log"
    expect 'run: a bad line behind many empty ones' 3 '' 'aether: line 16001 refused'
    printf 'pay 0 1 5\0\n' > "$work/script"
    on_file "$work/script" run "$log"
    expect 'run: a zero byte' 3 '' 'aether: line 1 refused'
    yes 'pay 0 1 5' | head -n 20000 | tr '\n' ' ' > "$work/script"
    on_file "$work/script" run "$log"
    expect 'run: a long line' 3 '' 'aether: line 1 refused'
    expect_file 'run: scripts that are refused' "$log" "$examples/genesis.log"
    # The gate that is missing is not written for a script that is refused.
    run_on "$work/front" 'pay 1 1 5'
    expect 'run: a bad line and a gate that is missing' 3 '' 'aether: line 1 refused'
    expect_file 'run: a bad line and a gate that is missing' "$log" "$work/front"
}
