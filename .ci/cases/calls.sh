# Calls of the system that are interrupted or move a part, and what is synced.

# Calls that are interrupted are made again, and those that moved a part go on: nothing is otherwise than without.
call_cases() {
    local what name three folder=$work/synced
    [ -n "$calls" ] || return
    three=$(summary_of 3 2080000080)
    for what in INTERRUPTS=1 INTERRUPTS=3 PIECE=1 PIECE=7; do
        on_file_so "$what" "$examples/genesis.log" recover
        expect "recover, $what" 0 "$genesis_text" ''
        on_file_so "$what" "$examples/one_transfer.log" dump
        expect "dump, $what" 0 $'0 genesis 0 100\n2 genesis 1 0\n4 update 1 0 -30 0\n6 update 1 1 30 0\n8 commit 1 1\nlsn 9\n' ''
        rm -f "$log"
        on_file_so "$what" "$work/balances" new "$log"
        expect "new, $what" 0 "$genesis_text" ''
        expect_file "new, $what" "$log" "$examples/genesis.log"
        on_file_so "$what" "$work/balances" new "$log"
        expect "new on a log, $what" 10 '' 'aether: log exists'
        head -c 44 "$examples/genesis.log" > "$log"
        printf 'pay 0 1 30\npay 1 0 50\n' > "$work/script"
        on_file_so "$what" "$work/script" run "$log" --workers 1 --wait
        expect "run, $what" 0 $'done 1 9\nshort 2 1 10\nlsn 10\n0 70\n1 30\n' ''
        expect_list "run, $what" $'4 update 1 0 -30 0\n6 update 1 1 30 0\n8 commit 1 1\n9 short 2 1\nlsn 10\n'
        rm -f "$log"
        on_file_so "$what" /dev/null demo "$log" 3 7
        expect "demo, $what" 0 "${three%.}" ''
        for name in cut upgrade; do
            rm -f "$log"
            on_file_so "$what" "$examples/one_transfer.log" "$name" "$log"
            expect "$name, $what" 0 "$cut_text" ''
            rm -f "$made"
            on_file "$log" "$name" "$made"
            expect_file "$name, $what" "$made" "$log"
        done
        on_file_so "$what" /dev/null demo
        expect "words that aren't taken, $what" 2 '' "$usage"
    done

    # What another program makes once it was found missing is opened, as one that was there.
    rm -f "$log"
    on_file_so MEANWHILE=1 "$work/balances" new "$log"
    expect 'new: a file that another program makes meanwhile' 0 "$genesis_text" ''
    expect_file 'new: a file that another program makes meanwhile' "$log" "$examples/genesis.log"
    rm -f "$log"
    on_file_so MEANWHILE=1 "$examples/one_transfer.log" cut "$log"
    expect 'cut: a file that another program makes meanwhile' 0 "$cut_text" ''
    rm -f "$log"
    on_file_so MEANWHILE=1 /dev/null demo "$log" 3 7
    expect 'demo: a file that another program makes meanwhile' 0 "${three%.}" ''

    # A new file's lock, the file itself, and then its folder; a folder in which nothing is made isn't synced.
    rm -rf "$folder"
    mkdir "$folder"
    for what in new demo run follow cut upgrade; do
        rm -f "$work/told"
        case $what in
        new) on_file_so "TOLD=$work/told" "$work/balances" new "$folder/new" ;;
        demo) on_file_so "TOLD=$work/told" /dev/null demo "$folder/demo" 3 7 ;;
        cut | upgrade) on_file_so "TOLD=$work/told" "$examples/one_transfer.log" "$what" "$folder/$what" ;;
        run) cp "$examples/genesis.log" "$folder/run" && on_file_so "TOLD=$work/told" "$work/script" run "$folder/run" ;;
        follow) cp "$cut_log" "$folder/follow" && on_file_so "TOLD=$work/told" <(stream_head 9; end_frame) follow "$folder/follow" ;;
        esac
        head -n 4 "$work/told" > "$work/out"
        : > "$work/err"
        if [ "$what" = run ] || [ "$what" = follow ]; then
            grep -v " [^ ]*/$what\$" "$work/told" > "$work/out"
            expect "$what: what is synced" 0 '' ''
        else
            expect "$what: what is synced" 0 "flock $folder/$what"$'\n'"fsync $folder/$what"$'\n'"fsync $folder"$'\n'"fdatasync $folder/$what"$'\n' ''
        fi
    done
    stale_cases
}
