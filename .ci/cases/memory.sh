# Where memory is wanting, and when none is taken.

# Where memory is wanting, and where it is too little for the stack of a thread.
memory_cases() {
    local name
    { on_file_within 8000 "$examples/genesis.log" recover; } 2> /dev/null
    if [ "$status" != 0 ]; then
        echo "built_program: $program needs more memory, some cases skipped"
        return
    fi
    head -c 40000000 /dev/zero > "$work/long"
    cp "$examples/genesis.log" "$log"
    rm -f "$work/none.log"
    # What reads a log finds in its first bytes that it is none.
    for name in recover dump "cut $work/none.log" "upgrade $work/none.log" 'ship 4' 'asof 4' 'statement 0'; do
        # shellcheck disable=SC2086
        on_file_within 20000 "$work/long" $name
        expect "${name%% *}: an input longer than the memory" 7 '' 'aether: not a log'
    done
    for name in "new $work/none.log" "run $log"; do
        # shellcheck disable=SC2086
        on_file_within 20000 "$work/long" $name
        expect "${name%% *}: an input for which there is no memory" 1 '' 'aether: out of memory'
    done
    expect_file 'new: an input for which there is no memory' "$work/none.log" /dev/null
    on_file_within 20000 /dev/null follow "$work/long"
    expect 'follow: a log for which there is no memory' 1 '' 'aether: out of memory'
    rm "$work/long"
    printf 'pay 0 1 30' > "$work/script"
    on_file_within 20000 "$work/script" run "$log" --ring 1048576
    expect 'run: a ring for which there is no memory' 1 '' 'aether: out of memory'
    expect_file 'run: no memory' "$log" "$examples/genesis.log"

    # The workers that get no thread are served by the daemon's.
    printf 'pay 0 1 30\npay 0 1 80\n' > "$work/script"
    on_file_within 8000 "$work/script" run "$log" --ring 1024
    expect 'run: no memory for a thread' 0 $'done 1 9\nshort 2 1 10\nlsn 10\n0 70\n1 30\n' ''
    for name in 8000 16000; do
        open_bank 2000
        on_file_within "$name" "$work/left" run "$log" --workers 2 --ring 1024
        end_bank "a bank within $name kilobytes"
        open_bank 300
        on_file_within "$name" "$work/left" run "$log" --workers 2 --ring 1024 --wait
        end_bank "a bank within $name kilobytes, --wait"
    done
    # Of 16 workers some get a thread, and the others are served by the daemon's.
    for name in 10000 40000 80000; do
        open_bank 2000
        on_file_within "$name" "$work/left" run "$log" --workers 16 --ring 1024
        end_bank "a bank of sixteen workers within $name kilobytes"
    done
    rm -f "$work/demo.log"
    on_file_within 20000 /dev/null demo "$work/demo.log" 3 7 --ring 1048576
    expect 'demo: a ring for which there is no memory' 1 '' 'aether: out of memory'
    expect_file 'demo: no memory' "$work/demo.log" /dev/null
    large_log_cases
    large_demo_case
    memory_steps
    cut_memory_cases
}

# Within the memory that the program itself needs: of a log of 4 MB `recover` and `cut` keep what it comes to, of one of 12 MB `asof` and `statement` what
# they are asked for, and the others more than that. A log of 40 MB is read by `recover` and `cut` in 20.
large_log_cases() {
    local name
    rm -f "$work/demo.log" "$work/none.log"
    on_file /dev/null demo "$work/demo.log" 100000 7
    on_file "$work/demo.log" recover
    mv "$work/out" "$work/accounts"
    for name in recover "cut $work/none.log"; do
        # shellcheck disable=SC2086
        on_file_within 8000 "$work/demo.log" $name
        expect_true "${name%% *}: a log of 4 MB within 8" [ "$status" = 0 ]
        expect_file "${name%% *}: the accounts of a log of 4 MB" "$work/out" "$work/accounts"
    done
    rm "$work/none.log"
    yes 'pay 0 1 1' | head -n 200000 > "$work/script"
    on_file "$work/script" run "$work/demo.log" --workers 1
    for name in dump "upgrade $work/none.log" 'ship 64'; do
        # shellcheck disable=SC2086
        on_file_within 8000 "$work/demo.log" $name
        expect "${name%% *}: a log for which there is no memory" 1 '' 'aether: out of memory'
    done
    for name in 'asof 64' 'statement 3'; do
        # shellcheck disable=SC2086
        on_file "$work/demo.log" $name
        mv "$work/out" "$work/told"
        # shellcheck disable=SC2086
        on_file_within 8000 "$work/demo.log" $name
        expect_true "${name%% *}: a log of 12 MB within 8" [ "$status" = 0 ]
        expect_file "${name%% *}: the text of a log of 12 MB" "$work/out" "$work/told"
    done
    yes $'pay 0 1 1\npay 1 0 1' | head -n 720000 > "$work/script"
    on_file "$work/script" run "$work/demo.log" --workers 1
    tail -n 65 "$work/out" > "$work/accounts"
    expect_true 'recover: a log of 40 MB' [ "$(wc -c < "$work/demo.log")" -gt 40000000 ]
    for name in recover "cut $work/none.log"; do
        rm -f "$work/none.log"
        # shellcheck disable=SC2086
        on_file_within 20000 "$work/demo.log" $name
        expect_true "${name%% *}: a log of 40 MB within 20" [ "$status" = 0 ]
        expect_file "${name%% *}: the accounts of a log of 40 MB" "$work/out" "$work/accounts"
    done
    rm -f "$work/demo.log" "$work/none.log"
}

# As many transfers as `demo` makes, by as many workers: what is held of memory at most.
large_demo_case() {
    local large most
    large=$(summary_of 100000 MIX)
    if ! command -v python3 > /dev/null; then
        echo 'built_program: no python3, the memory of a large demo is not measured'
        return
    fi
    rm -f "$work/demo.log"
    python3 - "$program" "$work/demo.log" > "$work/out" 2> "$work/err" << 'END'
import resource, subprocess, sys
ran = subprocess.run([sys.argv[1], "demo", sys.argv[2], "100000", "7", "--workers", "16"], stdin=subprocess.DEVNULL, timeout=600)
print("kilobytes", resource.getrusage(resource.RUSAGE_CHILDREN).ru_maxrss)
sys.exit(ran.returncode)
END
    status=$?
    most=$(sed -n 's/^kilobytes //p' "$work/out")
    sed -i -e '/^kilobytes /d' -e 's/^mix [0-9]*$/mix MIX/' "$work/out"
    expect 'demo of 100000 by 16 workers' 0 "${large%.}" ''
    if [ "${most:-100000}" -lt 100000 ]; then
        passed=$((passed + 1))
    else
        failed=$((failed + 1))
        echo "$program: demo of 100000 by 16 workers: $most kilobytes"
    fi
    rm -f "$work/demo.log"
}

# A little more memory from one run to the next: each does all of it, or says that there is none, and what it told is in the log.
memory_steps() {
    local most three refused=0
    three=$(summary_of 3 2080000080)
    for ((most = 6000; most <= 40000; most += 1000)); do
        rm -f "$work/demo.log"
        { on_file_within "$most" /dev/null demo "$work/demo.log" 3 7; } 2> /dev/null
        case $status in
        0) expect "demo within $most kilobytes" 0 "${three%.}" '' ;;
        1) expect "demo within $most kilobytes" 1 '' 'aether: out of memory' ;;
        # Too little for the system to begin the program.
        *) [ "$refused" = 0 ] && continue; expect "demo within $most kilobytes" 0 "${three%.}" '' ;;
        esac
        refused=1
        open_bank 100
        on_file_within "$most" "$work/left" run "$log"
        if [ "$status" = 0 ]; then
            end_bank "a bank within $most kilobytes"
        else
            cp "$work/out" "$work/told"
            : > "$work/out"
            expect "a bank within $most kilobytes" 1 '' 'aether: out of memory'
            judge_bank "a bank within $most kilobytes"
        fi
    done
}

# Once the last worker has started no memory is taken, up to the last write: neither for transfers nor for the text. What starting a thread takes
# is the system's, and comes before.
late_memory_cases() {
    if ! strace -f -o /dev/null true 2> /dev/null; then
        echo "built_program: no strace that may trace, memory that is taken late isn't counted"
        return
    fi
    open_bank 2000
    late_memory_case run "$log" < "$work/left"
    printf 'pay 0 1 30\npay 1 0 30\n' > "$work/script"
    late_memory_case run "$log" --wait < "$work/script"
    rm -f "$work/demo.log"
    late_memory_case demo "$work/demo.log" 2000 7 < /dev/null
}

# Runs the program with these words and sixteen workers, and counts the calls that take memory. Of those of `brk` that is one which answers a higher end of the
# heap than the one before: by a lower end the C library gives back what the program has freed there, as it does once the transfers are made.
late_memory_case() {
    strace -f -e trace=mmap,brk,mremap,clone,clone3,write,pwrite64 -e signal=none -o "$work/calls" \
        "$program" "$@" --workers 16 --slots 16 --ring 1024 > /dev/null 2> "$work/err"
    status=$?
    awk '$2 ~ /^clone3?\(/ { threads++; last = NR }
        $2 ~ /^(mmap|mremap)\(/ { taken[NR] }
        /brk/ && $NF ~ /^0x/ { if ($NF "" > heap "") taken[NR]; heap = $NF }
        $2 ~ /^(write|pwrite64)\(/ { end = NR }
        END { for (at in taken) late += at + 0 > last && at + 0 < end; print (threads > 0 && end > last ? "taken late: " late + 0 : "nothing counted") }' \
        "$work/calls" > "$work/out"
    expect "$1 of sixteen workers: memory" 0 $'taken late: 0\n' ''
}
