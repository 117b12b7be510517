# The commands `ship` and `follow`. `.ci/stream_reader.py` tries them on more streams, and judges them by a plain reader.

streams=$work/streams
one_text=$'lsn 9\n0 70\n1 30\n'

# Units of records: transaction 1 moves 30 from account 0 to account 1; a Short; a Commit of transaction 1; the header of an Update; no record.
thirty_units=(0202000000000001 FFFFFFE200000000 0202000100000001 0000001E00000000 0301000100000001)
short_unit=0401000100000002
commit_unit=0301000100000001
header_unit=0202000000000002
none_unit=0000000000000000

# What a stream from this LSN begins with; a frame of these units; the end frame.
stream_head() {
    bytes_of 41455348495031 "$(printf '%08x' "$1")"
}

frame_of() {
    bytes_of "$(printf '%08x' $#)" "$@"
}

end_frame() {
    bytes_of 00000000
}

# A stream from this LSN of one frame of these units.
stream_of() {
    stream_head "$1"
    shift
    frame_of "$@"
    end_frame
}

# Makes the streams and logs that the rows name.
make_streams() {
    local head
    rm -rf "$streams"
    mkdir "$streams"
    cp "$examples"/*.log "$streams"
    stream_of 4 "${thirty_units[@]}" > "$streams/all"
    head -c 30 "$streams/all" > "$streams/first_30"
    head -c 55 "$streams/all" > "$streams/first_55"
    { cat "$streams/all"; printf '\0'; } > "$streams/and_more"
    cat "$streams/all" "$streams/all" > "$streams/twice"
    : > "$streams/nothing"
    { stream_head 9; end_frame; } > "$streams/none_from_9"
    { stream_head 4; end_frame; frame_of "${thirty_units[@]}"; end_frame; } > "$streams/end_first"
    { stream_head 4; bytes_of 00010001; head -c 524300 /dev/zero; } > "$streams/count_65537"
    stream_of 4 "${thirty_units[@]}" "$header_unit" > "$streams/within"
    stream_of 4 "${thirty_units[@]}" "$short_unit" "$commit_unit" > "$streams/unlawful"
    { stream_head 4; frame_of "${thirty_units[@]}"; frame_of "$short_unit" "$commit_unit"; end_frame; } > "$streams/unlawful_second"
    stream_of 4 "${thirty_units[@]}" "$commit_unit" "$none_unit" > "$streams/none_behind"
    { stream_head 4; frame_of "${thirty_units[@]}" "$commit_unit"; frame_of "$none_unit"; end_frame; } > "$streams/none_in_next"
    { stream_head 4; frame_of "${thirty_units[@]}"; frame_of "$none_unit"; end_frame; } > "$streams/none_second"
    { stream_head 5; frame_of "$none_unit"; } > "$streams/gap_first"
    stream_of 0 0102000000000000 0000000000000064 > "$streams/from_0"
    { head_of 0 0 5 0 0 0; printf '\0'; } > "$streams/base_0.log"
    for head in 4294967290 4294967294; do
        { head_of "$head" 0 100 0 0 0; printf '\0'; } > "$streams/near_$head.log"
        stream_of "$head" "${thirty_units[@]}" > "$streams/from_$head"
    done
    { head_of 4294967290 0 100 0 0 0; printf 'O'; frame_of "${thirty_units[@]}"; printf '\0'; } > "$streams/full.log"
    { head_of 4 0 100 0 0 0; printf '\0'; } > "$streams/front_of_upgraded.log"
}

# A row's log follows its stream: LOG, STREAM, the status, the line or the text (with \n between lines), and the log that is left. At once, in pieces of
# 1 and 7 bytes, and where calls are interrupted.
followed() {
    local source=$1 stream=$2 want_status=$3 said=$4 left=$5 text='' fault='' what
    if [ "$want_status" = 0 ]; then text=$(printf '%b' "$said")$'\n'; else fault="aether: $said"; fi
    for what in '' PIECE=1 PIECE=7 INTERRUPTS=1; do
        cp "$streams/$source.log" "$log"
        if [ -z "$what" ]; then
            on_file "$streams/$stream" follow "$log"
        else
            [ -n "$calls" ] || continue
            on_file_so "$what" "$streams/$stream" follow "$log"
        fi
        expect "follow: $stream onto $source $what" "$want_status" "$text" "$fault"
        expect_file "follow: $stream onto $source $what" "$log" "$streams/$left.log"
    done
}

stream_cases() {
    local source stream want said left
    make_streams
    while IFS='|' read -r source stream want said left; do
        followed "$source" "$stream" "$want" "$said" "$left"
    done << 'END'
genesis|all|0|lsn 9\n0 70\n1 30|one_transfer
genesis|first_30|11|bad stream at byte 11|genesis
genesis|first_55|11|bad stream at byte 55|one_transfer
genesis|and_more|11|bad stream at byte 59|one_transfer
genesis|twice|11|bad stream at byte 59|one_transfer
one_transfer|all|12|stream from lsn 4, log ends at 9|one_transfer
one_transfer|none_from_9|0|lsn 9\n0 70\n1 30|one_transfer
cut|none_from_9|0|lsn 9\n0 70\n1 30|cut
front_of_upgraded|all|0|lsn 9\n0 70\n1 30|upgraded
upgraded|none_from_9|0|lsn 9\n0 70\n1 30|upgraded
genesis|nothing|11|bad stream at byte 0|genesis
genesis|end_first|11|bad stream at byte 15|genesis
genesis|count_65537|11|bad stream at byte 11|genesis
genesis|within|11|bad stream at byte 11|genesis
genesis|unlawful|14|unlawful stream record at lsn 10: ended|genesis
genesis|unlawful_second|14|unlawful stream record at lsn 10: ended|one_transfer
genesis|none_behind|11|bad stream at byte 11|genesis
genesis|none_in_next|14|unlawful stream record at lsn 9: ended|genesis
genesis|none_second|11|bad stream at byte 55|one_transfer
genesis|gap_first|12|stream from lsn 5, log ends at 4|genesis
genesis|from_0|12|stream from lsn 0, log ends at 4|genesis
base_0|from_0|14|unlawful stream record at lsn 0: genesis|base_0
near_4294967290|from_4294967290|0|lsn 4294967295\n0 70\n1 30|full
near_4294967294|from_4294967294|11|bad stream at byte 11|near_4294967294
wrong_predecessor|all|7|unlawful record at lsn 4: prev|wrong_predecessor
END
}

# A log is shipped from this LSN: the stream's digits, or the line of status 13, which leaves a stream that nobody can follow.
shipped() {
    local source=$1 from=$2 digits=${3// /} what
    for what in NOTHING=1 PIECE=1 PIECE=7 INTERRUPTS=1; do
        if [ "$what" = NOTHING=1 ]; then
            on_file "$source" ship "$from"
        else
            [ -n "$calls" ] || continue
            on_file_so "$what" "$source" ship "$from"
        fi
        mv "$work/out" "$work/stream"
        : > "$work/out"
        if [ "$digits" ]; then
            expect "ship $from of ${source##*/} $what" 0 '' ''
        else
            expect "ship $from of ${source##*/} $what" 13 '' "aether: no record boundary at lsn $from"
        fi
        expect_file "ship $from of ${source##*/} $what" "$work/stream" <(bytes_of "$digits")
    done
}

ship_cases() {
    local source magic=41455348495031 end=00000000 thirty="${thirty_units[*]}"
    local back="$magic 00000009 00000005 0202000100000002 FFFFFFE200000009 0202000000000002 0000001E00000009 0301000100000002 $end"
    shipped "$examples/one_transfer.log" 4 "$magic 00000004 00000005 $thirty $end"
    shipped "$examples/upgraded.log" 4 "$magic 00000004 00000005 $thirty $end"
    shipped "$examples/one_transfer.log" 5 ''
    shipped "$examples/one_transfer.log" 10 ''
    shipped "$examples/one_transfer.log" 4294967295 ''
    shipped "$examples/one_transfer.log" 9 "$magic 00000009 $end"
    shipped "$examples/genesis.log" 0 "$magic 00000000 00000004 0102000000000000 0000000000000064 0102000100000000 0000000000000000 $end"
    shipped "$examples/cut.log" 4 ''
    shipped "$examples/cut.log" 8 ''
    shipped "$examples/cut.log" 9 "$magic 00000009 $end"
    run_on "$examples/one_transfer.log" $'pay 1 0 30\n' --workers 1
    shipped "$log" 9 "$back"
    run_on "$cut_log" $'pay 1 0 30\n' --workers 1
    shipped "$log" 9 "$back"
    bytes_of "${back// /}" > "$streams/back"
    # What `follow` leaves: the frame is one batch. `run` may make several of it.
    for source in one_transfer cut upgraded; do
        { head -c -1 "$examples/$source.log"; printf 'O'; tail -c +12 "$streams/back" | head -c 44; printf '\0'; } > "$streams/${source}_back.log"
    done
    for source in one_transfer cut upgraded; do
        followed "$source" back 0 'lsn 14\n0 100\n1 0' "${source}_back"
    done
}

# What stands at the end of a log that follows.
standby_end_cases() {
    local tail
    head -c 44 "$examples/genesis.log" > "$work/front"
    printf '\x4f' | cat "$work/front" - > "$work/lone_gate"
    for tail in front lone_gate; do
        cp "$work/$tail" "$log"
        on_file "$streams/all" follow "$log"
        expect "follow: $tail" 0 "$one_text" ''
        expect_file "follow: $tail" "$log" "$examples/one_transfer.log"
        cp "$work/$tail" "$log"
        on_file "$streams/nothing" follow "$log"
        expect "follow: $tail, and nothing" 11 '' 'aether: bad stream at byte 0'
        expect_file "follow: $tail, and nothing" "$log" "$examples/genesis.log"
    done
    { cat "$examples/genesis.log"; head -c 2000 /dev/zero | tr '\0' 'O'; } > "$log"
    on_file "$streams/all" follow "$log"
    expect 'follow: bytes behind the end' 0 "$one_text" ''
    on_file "$log" recover
    expect 'follow: bytes behind the end, and the log' 0 "$one_text" ''
    "$program" ship 5 < "$examples/one_transfer.log" 2> /dev/null | "$program" follow "$log" > "$work/out" 2> "$work/err"
    status=${PIPESTATUS[1]}
    expect 'follow: what ship leaves when it refuses' 11 '' 'aether: bad stream at byte 0'
}

# Streams that fail, and names of logs.
standby_fault_cases() {
    local name
    for name in "$work" "$work/missing.log" '' /dev/full "$log/bank.log"; do
        on_file "$streams/all" follow "$name"
        expect "follow on '$name'" 6 '' 'aether: disk failed'
    done
    expect_true 'follow makes no file' [ ! -e "$work/missing.log" ]
    cp "$examples/genesis.log" "$log"
    on_file / follow "$log"
    expect 'follow: an input that is a folder' 4 '' 'aether: read failed'
    "$program" follow "$log" <&- > "$work/out" 2> "$work/err"
    status=$?
    expect 'follow: a closed input' 4 '' 'aether: read failed'
    expect_file 'follow: inputs that fail' "$log" "$examples/genesis.log"
    "$program" follow "$log" < "$streams/all" > /dev/full 2> "$work/err"
    status=$?
    : > "$work/out"
    expect 'follow: a full device' 5 '' 'aether: write failed'
    expect_file 'follow: a full device' "$log" "$examples/one_transfer.log"
    "$program" follow "$log" < "$streams/none_from_9" >&- 2> "$work/err"
    status=$?
    expect 'follow: a closed output' 5 '' 'aether: write failed'
    "$program" follow "$log" <&- >&- 2>&-
    status=$?
    : > "$work/err"
    expect 'follow: all streams closed' 4 '' ''
    expect_file 'follow: streams that are closed' "$log" "$examples/one_transfer.log"
    cp "$examples/genesis.log" "$work/-y.log"
    (cd "$work" && "$program" follow -- -y.log < "$streams/all" > "$work/out" 2> "$work/err")
    status=$?
    expect 'follow: a bare name that begins as a flag' 0 "$one_text" ''
    ship_fault_cases
}

ship_fault_cases() {
    on_file / ship 4
    expect 'ship: an input that is a folder' 4 '' 'aether: read failed'
    "$program" ship 4 <&- > "$work/out" 2> "$work/err"
    status=$?
    expect 'ship: a closed input' 4 '' 'aether: read failed'
    "$program" ship 4 < "$examples/one_transfer.log" > /dev/full 2> "$work/err"
    status=$?
    : > "$work/out"
    expect 'ship: a full device' 5 '' 'aether: write failed'
    "$program" ship 4 < "$examples/one_transfer.log" 2> "$work/err" >&-
    status=$?
    expect 'ship: a closed output' 5 '' 'aether: write failed'
}

# A demo log, its front of accounts, and the stream between, in frames of as many records as fit into 512 units. A transfer of the demo has records of 2, 2
# and 1 units, so a frame takes 102 transfers and an Update of the next where that fits: the frames have 512, 512 and 511 units, and then again, and three of
# them take 307 transfers. 5000 transfers are 25000 units: 16 such rounds of 1535 units, and a frame of 440.
demo_frames=49
demo_stream_cases() {
    local at=$work/standby_demo
    rm -rf "$at"
    mkdir "$at"
    "$program" demo "$at/primary.log" 5000 7 --workers 1 > /dev/null
    "$program" demo "$at/standby.log" 0 7 > /dev/null
    cp "$at/standby.log" "$at/front.log"
    on_file "$at/primary.log" ship 128
    mv "$work/out" "$at/stream"
    : > "$work/out"
    expect 'ship of a demo log' 0 '' ''
    expect_true 'ship of a demo log: its frames' [ "$(wc -c < "$at/stream")" = $((11 + 4 * demo_frames + 8 * 25000 + 4)) ]
    # The third frame begins behind the header and two counts with 512 units each, and LSN 128 + 2 * 512.
    head -c 10000 "$at/stream" > "$work/cut"
    on_file "$work/cut" follow "$at/standby.log"
    expect 'follow of 10000 bytes' 11 '' 'aether: bad stream at byte 8211'
    "$program" recover < "$at/standby.log" 2> "$work/err" | head -n 1 > "$work/out"
    status=${PIPESTATUS[0]}
    expect 'follow of 10000 bytes, and the log' 0 $'lsn 1152\n' ''
    "$program" ship 1152 < "$at/primary.log" | "$program" follow "$at/standby.log" > "$work/told" 2> "$work/err"
    status=${PIPESTATUS[1]}
    : > "$work/out"
    expect 'follow of the rest' 0 '' ''
    expect_file 'follow of the rest' "$work/told" <("$program" recover < "$at/primary.log")
    expect_file 'follow of the rest: the dumps' <("$program" dump < "$at/standby.log") <("$program" dump < "$at/primary.log")
    "$program" ship 0 < "$at/primary.log" 2> /dev/null | head -c 1000 | "$program" follow "$at/front.log" > "$work/out" 2> "$work/err"
    status=${PIPESTATUS[2]}
    expect 'follow of what nobody can follow' 12 '' 'aether: stream from lsn 0, log ends at 128'
}

# Begins to follow a stream that waits behind its first frame, once that frame is in the log: $child, whose input is held open by 7.
begin_waiting() {
    local tries=0
    rm -f "$work/pipe"
    mkfifo "$work/pipe"
    cp "$examples/genesis.log" "$log"
    # What a script starts beside it begins with some signals ignored.
    env --default-signal "$program" follow "$log" < "$work/pipe" > "$work/out" 2> "$work/err" &
    child=$!
    exec 7> "$work/pipe"
    head -c 55 "$streams/all" >&7
    while ! cmp -s "$log" "$examples/one_transfer.log" && [ $((tries += 1)) -lt 3000 ]; do sleep 0.1; done
    expect_file 'follow: a frame of a stream that waits' "$log" "$examples/one_transfer.log"
    expect_true 'follow: it waits' kill -0 "$child"
}

# A frame is in the log while the stream waits for its next, the log is kept from others, and a signal then loses nothing.
waiting_cases() {
    local child signal
    begin_waiting
    cp "$work/out" "$work/told"
    timeout 600 "$program" run "$log" < /dev/null > "$work/other" 2>&1
    expect_true 'follow: a run meanwhile' [ "$?:$(< "$work/other")" = '6:aether: disk failed' ]
    end_frame >&7
    exec 7>&-
    wait "$child"
    status=$?
    expect_file 'follow: nothing is told before the end' "$work/told" /dev/null
    expect 'follow: a stream that waited' 0 "$one_text" ''
    for signal in KILL TERM INT HUP QUIT; do
        begin_waiting
        kill -s "$signal" "$child"
        { wait "$child"; status=$?; } 2> /dev/null
        exec 7>&-
        expect "follow: the signal $signal" $((128 + $(kill -l "$signal"))) '' ''
        expect_file "follow: the signal $signal" "$log" "$examples/one_transfer.log"
        on_file "$streams/none_from_9" follow "$log"
        expect "follow: once more after the signal $signal" 0 "$one_text" ''
    done
}

# How long a file may be, and what a file system has room for.
room_cases() {
    local at=$work/standby_demo limit=40
    "$program" demo "$at/limited.log" 0 7 > /dev/null
    {
        (ulimit -c 0 && ulimit -f "$limit" && exec timeout 600 "$program" follow "$at/limited.log" < "$at/stream" > "$work/out" 2> "$work/err")
        status=$?
    } 2> /dev/null
    expect 'follow: a limit on files' 153 '' ''
    expect_followed_front 'follow: a limit on files' "$at/limited.log"
    "$program" demo "$at/limited.log" 0 7 > /dev/null
    (trap '' XFSZ && ulimit -f "$limit" && exec timeout 600 "$program" follow "$at/limited.log" < "$at/stream" > "$work/out" 2> "$work/err")
    status=$?
    expect 'follow: a limit on files, and no signal' 6 '' 'aether: disk failed'
    expect_followed_front 'follow: a limit on files, and no signal' "$at/limited.log"
    { (ulimit -c 0 && ulimit -f "$limit" && exec timeout 600 "$program" ship 128 < "$at/primary.log" > "$work/front" 2> "$work/err"); status=$?; } 2> /dev/null
    expect 'ship: a limit on files' 153 '' ''
    expect_file 'ship: a limit on files' "$work/front" <(head -c "$(wc -c < "$work/front")" "$at/stream")
    mkdir -p "$mounted"
    mount -t tmpfs -o size=32k none "$mounted" 2> /dev/null || return
    "$program" demo "$mounted/log" 0 7 > /dev/null
    on_file "$at/stream" follow "$mounted/log"
    expect 'follow: a file system that gets full' 6 '' 'aether: disk failed'
    mount -o remount,size=1m "$mounted"
    expect_followed_front 'follow: a file system that gets full' "$mounted/log"
    umount "$mounted"
}

# What a follow left that ended early is a front of the primary's log, in whole frames, and goes on.
expect_followed_front() {
    local name=$1 left=$2 at=$work/standby_demo end
    end=$("$program" recover < "$left" | sed -n 's/^lsn //p')
    case $(((end - 128) % 1535)) in
    0 | 512 | 1024) expect_true "$name: some frames" [ "$end" -gt 128 ] ;;
    *) expect_true "$name: whole frames, and not up to $end" false ;;
    esac
    "$program" ship "$end" < "$at/primary.log" | "$program" follow "$left" > "$work/told" 2> /dev/null
    expect_file "$name: gone on" <("$program" dump < "$left") <("$program" dump < "$at/primary.log")
    rm "$left"
}

# Streams that answer at once: an input that has nothing yet can't be read, and an output that is full can't be written.
nonblocking_standby_cases() {
    if ! dd iflag=nonblock oflag=nonblock count=0 < /dev/null > /dev/null 2>&1; then return; fi
    rm -f "$work/pipe"
    mkfifo "$work/pipe"
    exec 6<> "$work/pipe"
    dd iflag=nonblock count=0 <&6 2> /dev/null
    cp "$examples/genesis.log" "$log"
    head -c 55 "$streams/all" >&6
    "$program" follow "$log" <&6 > "$work/out" 2> "$work/err"
    status=$?
    expect "follow: an input that doesn't block" 4 '' 'aether: read failed'
    expect_file "follow: an input that doesn't block, and the frame before" "$log" "$examples/one_transfer.log"
    "$program" ship 128 < "$work/standby_demo/primary.log" >&6 2> "$work/err"
    status=$?
    timeout 600 cat <&6 > "$work/front" 2> /dev/null
    expect "ship: an output that doesn't block" 5 '' 'aether: write failed'
    expect_true "ship: an output that doesn't block: some of it" [ -s "$work/front" ]
    expect_file "ship: an output that doesn't block" "$work/front" <(head -c "$(wc -c < "$work/front")" "$work/standby_demo/stream")
    exec 6<&-
}

# Four writes and syncs for each frame, and at most three more to open the log.
sync_cases() {
    local count
    [ -n "$calls" ] || return
    "$program" demo "$work/synced.log" 0 7 > /dev/null
    rm -f "$work/told"
    on_file_so "TOLD=$work/told" "$work/standby_demo/stream" follow "$work/synced.log"
    count=$(grep -cE '^(fdatasync|fsync|pwrite) ' "$work/told")
    expect_true "follow: $count writes and syncs of $demo_frames frames" [ "$count" -ge $((4 * demo_frames)) ]
    expect_true "follow: $count writes and syncs of $demo_frames frames" [ "$count" -le $((4 * demo_frames + 3)) ]
    rm -f "$work/synced.log"
}

# A little more memory from one run to the next, on a log of 1.2 MB and a standby with most of it: all is done, or there is no memory, and then the standby is as
# it was.
standby_memory_cases() {
    local most at=$work/standby_memory
    rm -rf "$at"
    mkdir "$at"
    "$program" demo "$at/primary.log" 30000 7 > /dev/null
    "$program" demo "$at/standby.log" 0 7 > /dev/null
    "$program" recover < "$at/primary.log" > "$at/accounts"
    "$program" ship 128 < "$at/primary.log" > "$at/stream"
    head -c 1000000 "$at/stream" | "$program" follow "$at/standby.log" > /dev/null 2>&1
    "$program" ship "$("$program" recover < "$at/standby.log" | sed -n 's/^lsn //p')" < "$at/primary.log" > "$at/rest"
    for ((most = 4000; most <= 14000; most += 1000)); do
        cp "$at/standby.log" "$log"
        { on_file_within "$most" "$at/rest" follow "$log"; } 2> /dev/null
        [ "$status" = 0 ] || expect_file "follow within $most kilobytes, and the log" "$log" "$at/standby.log"
        expect_within "$most" follow "$at/accounts"
        { on_file_within "$most" "$at/primary.log" ship 128; } 2> /dev/null
        expect_within "$most" ship "$at/stream"
    done
    rm -rf "$at"
}

# A stream that is longer than the memory that there is, in the longest frames: notes of one transaction.
long_stream_cases() {
    python3 - "$streams/long" << 'END'
import struct, sys
frame = struct.pack(">I", 65536) + struct.pack(">QQ", 0x0602000200000003, 0x6869000000000000) * 32768
with open(sys.argv[1], "wb") as stream:
    stream.write(b"AESHIP1" + struct.pack(">I", 4) + frame * 80 + bytes(4))
END
    cp "$examples/genesis.log" "$log"
    on_file_within 20000 "$streams/long" follow "$log"
    expect 'follow: a stream that is longer than memory' 0 $'lsn 5242884\n0 100\n1 0\n' ''
    rm -f "$streams/long"
}

# Answers that a plain reader knows.
stream_reader_cases() {
    local what
    if ! command -v python3 > /dev/null; then
        echo 'built_program: no python3, nothing of .ci/stream_reader.py'
        return
    fi
    read_as_plain bits hostile lots demos
    for what in PIECE=1 PIECE=7; do
        [ -n "$calls" ] && read_as_plain --env "$what" --env "LD_PRELOAD=$calls" bits
    done
}

# The last line has how many answers were right and wrong.
read_as_plain() {
    local right wrong
    "$top/.ci/stream_reader.py" "$program" "$@" > "$work/judged" 2>&1
    head -n -1 "$work/judged"
    read -r right wrong < <(tail -n 1 "$work/judged")
    if [[ $right =~ ^[0-9]+$ && $wrong =~ ^[0-9]+$ ]]; then
        passed=$((passed + right))
        failed=$((failed + wrong))
    else
        failed=$((failed + 1))
        tail -n 3 "$work/judged"
    fi
}

# The manual's recipes, each run from its text.
standby_recipe_cases() {
    local at=$work/recipe
    recipe_folder
    mv "$at/bank.log" "$at/primary.log"
    run_recipe 'Making a standby'
    expect 'recipe: making a standby' 0 '' ''
    expect_file 'recipe: making a standby' "$at/standby.log" "$examples/one_transfer.log"
    expect_file 'recipe: making a small standby' "$at/small.log" "$cut_log"
    loop_recipe standby
    recipe_folder
    mv "$at/bank.log" "$at/primary.log"
    run_recipe 'Making a standby'
    mv "$at/small.log" "$at/standby.log"
    loop_recipe small
    take_over_recipe
    difference_recipe
}

# The loop, beside a bank that runs on the primary.
loop_recipe() {
    local at=$work/recipe child tries
    yes $'pay 0 1 3\npay 1 0 3' | head -n 4000 > "$at/script"
    rm -f "$at/stop"
    { for _ in 1 2 3 4 5; do "$program" run "$at/primary.log" --workers 2 < "$at/script"; done > /dev/null 2>&1; touch "$at/stop"; } &
    child=$!
    run_recipe 'The loop'
    wait "$child"
    expect "recipe: the loop, $1" 0 '' ''
    # The loop may have seen the last but one end. It goes round once more: `told` is written once a piece is applied.
    rm -f "$at/stop" "$at/told"
    { for ((tries = 0; tries < 1000; tries++)); do [ -s "$at/told" ] && break; sleep 0.1; done; touch "$at/stop"; } &
    child=$!
    run_recipe 'The loop'
    wait "$child"
    "$program" recover < "$at/primary.log" > "$work/told"
    expect_file "recipe: the loop, $1, and the accounts" <("$program" recover < "$at/standby.log") "$work/told"
}

take_over_recipe() {
    local at=$work/recipe
    printf 'pay 0 1 1\n' > "$at/script"
    "$program" run "$at/primary.log" < "$at/script" > /dev/null
    run_recipe 'Taking over'
    tail -n 2 "$work/out" > "$work/told"
    : > "$work/out"
    expect 'recipe: taking over' 0 '' ''
    expect_file 'recipe: taking over, and the accounts' "$work/told" <(printf '0 68\n1 32\n')
}

# Two logs of which one begins the other; and two that went apart at a transfer of the same size on the same accounts, which no stream tells.
difference_recipe() {
    local at=$work/recipe
    recipe_folder
    cp "$examples/genesis.log" "$at/primary.log"
    cp "$examples/genesis.log" "$at/standby.log"
    printf 'pay 0 1 10\n' | "$program" run "$at/primary.log" --workers 1 > /dev/null
    run_recipe 'Where the two differ'
    expect 'recipe: where the two differ, a front' 0 '' ''
    printf 'pay 0 1 20\n' | "$program" run "$at/standby.log" --workers 1 > /dev/null
    run_recipe 'Where the two differ'
    expect_true 'recipe: where the two differ' [ "$status" = 1 ]
    printf 'pay 1 0 10\n' | "$program" run "$at/primary.log" --workers 1 > /dev/null
    "$program" ship 9 < "$at/primary.log" > "$work/piece"
    on_file "$work/piece" follow "$at/standby.log"
    expect 'logs that went apart, and no stream tells' 0 $'lsn 14\n0 90\n1 10\n' ''
    told_difference_cases
}

# Two logs that went apart by the order of two transfers: what tells it is the first account whose last commit is another, or where they end.
told_difference_cases() {
    local at=$work/recipe
    recipe_folder
    printf '50\n50\n50\n' | "$program" new "$at/primary.log" > /dev/null
    cp "$at/primary.log" "$at/standby.log"
    printf 'pay 0 1 5\npay 0 2 5\npay 1 0 1\n' | "$program" run "$at/primary.log" --workers 1 > /dev/null
    printf 'pay 0 2 5\npay 0 1 5\n' | "$program" run "$at/standby.log" --workers 1 > /dev/null
    cp "$at/standby.log" "$work/whole"
    "$program" ship 16 < "$at/primary.log" > "$work/piece"
    on_file "$work/piece" follow "$at/standby.log"
    expect 'logs that went apart, and the next commit' 14 '' 'aether: unlawful stream record at lsn 16: prev'
    "$program" ship 11 < "$at/primary.log" > "$work/piece"
    on_file "$work/piece" follow "$at/standby.log"
    expect 'logs that went apart, and a stream from before' 12 '' 'aether: stream from lsn 11, log ends at 16'
    expect_file 'logs that went apart' "$at/standby.log" "$work/whole"
    # A refusal takes one unit, and the primary has an Update there.
    printf 'pay 2 0 99\n' | "$program" run "$at/standby.log" --workers 1 > /dev/null
    on_file "$at/primary.log" ship 17
    expect 'logs that went apart, and their ends' 13 '' 'aether: no record boundary at lsn 17'
}

standby_cases() {
    stream_cases
    ship_cases
    standby_end_cases
    standby_fault_cases
    demo_stream_cases
    waiting_cases
    room_cases
    nonblocking_standby_cases
    sync_cases
    standby_memory_cases
    stream_reader_cases
    standby_recipe_cases
    if command -v python3 > /dev/null; then
        long_stream_cases
        expect_true 'a primary and a standby that are killed' "$top/.ci/standby_loop" 10 "$program"
    fi
}
