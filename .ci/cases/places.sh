# What LOG may be, rights, locks, and file systems that are full, can't be written or lose what wasn't synced.

# What LOG may be besides a file. The disk fails at once, and nothing is made or changed.
place_cases() {
    local folder=$work/places name command long
    long=$(yes x | head -n 256 | tr -d '\n')
    rm -rf "$folder"
    mkdir -p "$folder/folder"
    mkfifo "$folder/pipe"
    ln -s missing/target "$folder/dangling"
    ln -s folder/target "$folder/nowhere"
    ln -s one "$folder/other"
    ln -s other "$folder/one"
    cp "$examples/genesis.log" "$folder/file"
    local names=("$folder/folder" "$folder/folder/" "$folder/pipe" "$folder/dangling" "$folder/nowhere" "$folder/one" "$folder/file/"
        "$folder/$long" "$folder/missing/log" '' . .. / /dev/full /dev/null /dev/zero "$(yes x | head -n 5000 | tr -d '\n')")
    if python3 -c 'import socket, sys; socket.socket(socket.AF_UNIX).bind(sys.argv[1])' "$folder/socket" 2> /dev/null; then
        names+=("$folder/socket")
    fi
    ls -lR --time-style=full-iso "$folder" | grep -v "^total " > "$work/before"
    for name in "${names[@]}"; do
        for command in new run demo cut upgrade follow; do
            on_place "$command" "$name"
            expect "$command on '${name:0:80}'" 6 '' 'aether: disk failed'
        done
    done
    ls -lR --time-style=full-iso "$folder" | grep -v "^total " > "$work/listed"
    expect_file 'what LOG may be: nothing is changed' "$work/listed" "$work/before"
    hole_case
    read_only_cases
}

# A whole log, and behind its end a hole up to a terabyte: there is no memory for it, which is told before any of it is read, and so within a second of a
# processor's time.
hole_case() {
    local name
    cp "$examples/genesis.log" "$log"
    if ! truncate -s 1T "$log" 2> /dev/null; then
        echo "built_program: no file of a terabyte, nothing of one that is longer than memory"
        return
    fi
    for name in run follow; do
        timeout 600 bash -c 'ulimit -t 1 && ulimit -v 8000000 && exec "$@"' - "$program" "$name" "$log" < /dev/null > "$work/out" 2> "$work/err"
        status=$?
        expect "$name: a log longer than memory" 1 '' 'aether: out of memory'
        cmp -s <(head -c 45 "$log") "$examples/genesis.log" && [ "$(stat -c %s "$log")" = $((1 << 40)) ]
        expect_true "$name: a log longer than memory is left" [ $? = 0 ]
    done
    rm -f "$log"
}

# Runs a command that writes a log on what has this name.
on_place() {
    case $1 in
    new) on_file "$work/balances" new "$2" ;;
    run | follow) on_file /dev/null "$1" "$2" ;;
    demo) on_file /dev/null demo "$2" 3 7 ;;
    cut | upgrade) on_file "$examples/one_transfer.log" "$1" "$2" ;;
    esac
}

# A file system that can't be written.
read_only_cases() {
    local command
    mkdir -p "$mounted"
    if ! mount -t tmpfs -o size=64k none "$mounted" 2> /dev/null; then
        echo "built_program: no file system of its own, nothing of one that can't be written, nor of a full one"
        return
    fi
    cp "$examples/genesis.log" "$mounted/bank.log"
    mount -o remount,ro "$mounted"
    for command in 'new new.log' 'new bank.log' 'run bank.log' 'demo new.log' 'cut new.log' 'upgrade bank.log' 'follow bank.log'; do
        on_place "${command% *}" "$mounted/${command#* }"
        expect "$command on a file system that can't be written" 6 '' 'aether: disk failed'
    done
    expect_file "a file system that can't be written" "$mounted/bank.log" "$examples/genesis.log"
    on_file "$mounted/bank.log" recover
    expect "recover on a file system that can't be written" 0 "$genesis_text" ''
    umount "$mounted"
}

# A file system that is full in the midst of a batch; once there is room, all goes on.
full_cases() {
    local options log=$mounted/bank.log
    mkdir -p "$mounted"
    mount -t tmpfs -o size=32k none "$mounted" 2> /dev/null || return
    for options in '--workers 1' '--workers 2' '--workers 2 --ring 1024' '--wait'; do
        mount -o remount,size=32k "$mounted"
        open_bank 2000
        # shellcheck disable=SC2086
        timeout 600 "$program" run "$log" $options < "$work/left" > "$work/told" 2> "$work/err"
        status=$?
        : > "$work/out"
        expect "a bank, and a full file system $options" 6 '' 'aether: disk failed'
        judge_bank "a bank, and a full file system $options"
        mount -o remount,size=1m "$mounted"
        finish_bank "a bank, and a full file system $options, run on"
        rm -f "$log"
    done
    mount -o remount,size=32k "$mounted"
    head -c 32768 /dev/zero > "$mounted/all"
    on_file "$work/balances" new "$log"
    expect 'new on a full file system' 6 '' 'aether: disk failed'
    rm "$mounted/all"
    on_file /dev/null demo "$mounted/demo.log" 2000 7
    expect 'demo on a file system that gets full' 6 '' 'aether: disk failed'
    on_file "$mounted/demo.log" dump
    head -n 64 "$work/out" | awk '$1 != 2 * $3 || $4 != 1000000' > "$work/other"
    expect_file 'demo on a file system that gets full, and its accounts' "$work/other" /dev/null
    umount "$mounted"
}

# What may be read and written counts for a user without rights alone. Root gives its own up, where it can.
rights_cases() {
    local plain=$work/plain name without=() words input
    rm -rf "$plain"
    mkdir -p "$plain/locked"
    cp "$program" "$plain/aether"
    chmod 755 "$work" "$plain" "$plain/aether"
    [ "$(id -u)" = 0 ] && without=(setpriv --reuid=65534 --regid=65534 --clear-groups)
    "${without[@]}" "$plain/aether" < /dev/null > /dev/null 2>&1
    if [ $? != 2 ]; then
        echo "built_program: no user without rights, some cases skipped"
        return
    fi
    cp "$examples/genesis.log" "$plain/locked/bank.log"
    printf 'pay 0 1 30' > "$work/script"
    as_plain() { "${without[@]}" "$plain/aether" "$@" > "$work/out" 2> "$work/err"; status=$?; }

    # What each command reads, so that nothing but the log's rights is in its way.
    declare -A input=([run]=$work/script [follow]=$work/script [new]=$work/balances [demo]=/dev/null
        [cut]=$examples/one_transfer.log [upgrade]=$examples/one_transfer.log)
    for name in run follow new demo cut upgrade; do
        words=("$name" "$plain/locked/bank.log")
        [ "$name" = demo ] && words+=(3 7)
        chmod 444 "$plain/locked/bank.log"
        as_plain "${words[@]}" < "${input[$name]}"
        expect "$name: a log that cannot be written" 6 '' 'aether: disk failed'
        chmod 222 "$plain/locked/bank.log"
        as_plain "${words[@]}" < "${input[$name]}"
        expect "$name: a log that cannot be read" 6 '' 'aether: disk failed'
        chmod 666 "$plain/locked/bank.log"
        chmod 444 "$plain/locked"
        as_plain "${words[@]}" < "${input[$name]}"
        expect "$name: a folder that cannot be entered" 6 '' 'aether: disk failed'
        chmod 755 "$plain/locked"
        expect_file "$name: a log without rights" "$plain/locked/bank.log" "$examples/genesis.log"
    done
    chmod 555 "$plain/locked"
    as_plain run "$plain/locked/bank.log" < "$work/script"
    expect 'run: a folder that cannot be written' 0 $'done 1 9\nlsn 9\n0 70\n1 30\n' ''
    as_plain new "$plain/locked/new.log" < "$work/balances"
    expect 'new: a folder that cannot be written' 6 '' 'aether: disk failed'
    as_plain cut "$plain/locked/new.log" < "$examples/one_transfer.log"
    expect 'cut: a folder that cannot be written' 6 '' 'aether: disk failed'
    chmod 755 "$plain/locked"
    thread_cases
}

# No thread is to be had, or no number for a file. A limit on threads counts for a user without rights alone. The daemon's thread then
# serves the workers.
thread_cases() {
    local options name bank=$plain/bank.log three
    three=$(summary_of 3 2080000080)
    as_plain_within() {
        "${without[@]}" bash -c 'ulimit -u 1 && exec "$@"' - "$plain/aether" "$@" > "$work/out" 2> "$work/err"
        status=$?
    }
    printf 'pay 0 1 30\npay 0 1 80\n' > "$work/script"
    for options in '--workers 1' '--workers 2' '--wait'; do
        cp "$examples/genesis.log" "$bank"
        chmod 666 "$bank"
        # shellcheck disable=SC2086
        as_plain_within run "$bank" $options < "$work/script"
        expect "run $options: no thread" 0 $'done 1 9\nshort 2 1 10\nlsn 10\n0 70\n1 30\n' ''
    done
    chmod 777 "$plain"
    as_plain_within demo "$plain/demo.log" 3 7
    expect 'demo: no thread' 0 "${three%.}" ''
    # The system's loader takes one number, and gives it back.
    for name in run follow; do
        (exec < "$work/script" > "$work/out" 2> "$work/err" && ulimit -n 4 && exec "$program" "$name" "$bank")
        status=$?
        expect "$name: no number for a file" 6 '' 'aether: disk failed'
    done
}

# A file system without a journal, on which a log was deleted: what is left where power goes once a new file is there, and before its data is synced.
stale_cases() {
    local disk=$work/disk.image
    mkdir -p "$mounted"
    if ! { head -c 4194304 /dev/zero > "$disk" && mkfs.ext2 -q -F "$disk" && mount -o loop "$disk" "$mounted"; } 2> /dev/null; then
        echo "built_program: no file system of its own, nothing of what a deleted file leaves"
        return
    fi
    on_file "$work/balances" new "$mounted/deleted.log"
    expect 'new: a log to be deleted' 0 "$genesis_text" ''
    sync -f "$mounted"
    rm "$mounted/deleted.log"
    on_file_so NO_DATA_SYNCS=1 "$work/balances" new "$mounted/new.log"
    expect 'new: a sync that fails' 6 '' 'aether: disk failed'
    cp "$disk" "$disk.left"
    umount "$mounted"
    if mount -o loop,ro "$disk.left" "$mounted" 2> /dev/null; then
        on_file "$mounted/new.log" recover
        expect 'new: what a deleted log leaves' 7 '' 'aether: not a log'
        umount "$mounted"
    else
        echo "built_program: what is left can't be mounted, nothing of what a deleted file leaves"
    fi
}

# A log that another program has locked, here this script, and a file system that has no locks.
lock_cases() {
    local words
    cp "$examples/genesis.log" "$log"
    if command -v flock > /dev/null; then
        exec 5<> "$log"
        flock -n 5
        for words in "new $log" "run $log" "run $log --workers 1 --wait" "demo $log 3 7" "cut $log" "upgrade $log" "follow $log"; do
            # shellcheck disable=SC2086
            on_file "$work/balances" $words
            expect "${words%% *}: a log that is locked" 6 '' 'aether: disk failed'
        done
        expect_file 'a log that is locked' "$log" "$examples/genesis.log"
        on_file "$log" recover
        expect 'recover: a log that is locked' 0 "$genesis_text" ''
        on_file "$log" dump
        expect 'dump: a log that is locked' 0 $'0 genesis 0 100\n2 genesis 1 0\nlsn 4\n' ''
        exec 5>&-
        on_file /dev/null run "$log"
        expect 'run: a log that was locked' 0 "$genesis_text" ''
    else
        echo "built_program: no flock, so no log is locked by another program than this one"
    fi
    if [ -n "$calls" ]; then
        for words in "new $log" "run $log" "demo $log 3 7" "cut $log" "upgrade $log" "follow $log"; do
            # shellcheck disable=SC2086
            on_file_so NO_LOCKS=1 "$work/balances" $words
            expect "${words%% *}: a file system without locks" 6 '' 'aether: disk failed'
        done
        expect_file 'a file system without locks' "$log" "$examples/genesis.log"
    fi
}
