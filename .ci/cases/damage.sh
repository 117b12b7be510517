# Damage that no command tells of: what examples/tail_check.py and examples/salvage.py say, beside the program.

# Runs one of the two on these words, as `on_file` runs the program.
look_by() {
    local script=$1
    shift
    "$python" -I -S "$examples/$script" "$@" > "$work/out" 2> "$work/err"
    status=$?
}

# The LSN at which the list of a file would end, if all behind its first bad batch were gone; nothing where a record is bad.
end_before_bad() {
    local file=$1 place
    while ! "$program" dump < "$file" > "$work/shown" 2> "$work/fault"; do
        place=$(sed -n 's/^aether: bad batch at byte //p' "$work/fault")
        [ -n "$place" ] || return
        head -c "$place" "$file" > "$work/before_bad"
        file=$work/before_bad
    done
    sed -n 's/^lsn //p' "$work/shown"
}

# The tail as the script tells of it, and as the program reads a copy whose last gate is open: what would follow.
expect_tail() {
    local name=$1 file=$2 gate lsn end told
    look_by tail_check.py "$file"
    cp "$work/out" "$work/told"
    told=$status
    on_file "$file" dump
    if [ "$status" != 0 ]; then
        expect_true "$name: tail_check, status $told" [ "$told" = "$status" ]
        return
    fi
    lsn=$(sed -n 's/^lsn //p' "$work/out")
    gate=$(sed -n 's/^gate at byte \([0-9]*\): .*/\1/p' "$work/told")
    expect_true "$name: tail_check, where the list ends" [ "$(head -n 1 "$work/told")" = "lsn $lsn" ]
    expect_true "$name: tail_check, the last gate" [ "$(head -c "$gate" "$file" | "$program" dump | tail -n 1)" = "lsn $lsn" ]
    { head -c "$gate" "$file"; printf O; tail -c +$((gate + 2)) "$file"; } > "$work/opened"
    end=$(end_before_bad "$work/opened")
    [ -n "$end" ] || return
    [ "$end" = "$lsn" ] && end=
    expect_true "$name: tail_check, '$(tail -n 1 "$work/told")', wanted '$end'" [ "$(sed -n 's/.*, to lsn //p' "$work/told")" = "$end" ]
    [ -z "$end" ] || expect_true "$name: tail_check, status $told" [ "$told" = 1 ]
}

# A log of three runs with a transfer each, behind a log of two accounts: its batches end at bytes 44, 89, 134 and 179.
three_runs() {
    local name
    cp "$examples/genesis.log" "$log"
    printf 'pay 0 1 3\n' > "$work/script"
    for name in first second third; do
        "$program" run "$log" --workers 1 < "$work/script" > /dev/null
        cp "$log" "$work/$name.log"
    done
}

# A copy of the file with these bytes, pairs of digits, from that place on.
with_bytes() {
    head -c "$2" "$1"
    bytes_of "$3"
    tail -c +$(($2 + ${#3} / 2 + 1)) "$1"
}

flipped_gate_cases() {
    local gate bit digits
    for gate in 44 89 134; do
        for bit in 1 2 4 8 16 32 64 128 79; do
            digits=$(printf '%02X' $((0x4F ^ bit)))
            with_bytes "$work/third.log" "$gate" "$digits" > "$work/flipped"
            on_file "$work/flipped" recover
            expect_true "gate $gate is $digits: recover ends with $status" [ "$status" = 0 ]
            expect_tail "gate $gate is $digits" "$work/flipped"
            look_by tail_check.py "$work/flipped"
            expect "gate $gate is $digits: tail_check" 1 \
                "$(printf '%s\n' "lsn $((gate / 9))" "gate at byte $gate: $digits" "behind it: $((179 - gate)) bytes, $(((179 - gate) / 45)) whole batches, to lsn 19")"$'\n' ''
        done
    done
    # The next run writes over it.
    with_bytes "$work/third.log" 89 00 > "$log"
    on_file "$work/script" run "$log" --workers 1
    expect 'a gate that is closed, run on' 0 $'done 2 14\nlsn 14\n0 94\n1 6\n' ''
    expect_tail 'a gate that is closed, run on' "$log"
    # What would follow ends at the next gate that isn't open, and at a batch whose units spell no records.
    with_bytes "$work/third.log" 44 00 > "$work/cut"
    with_bytes "$work/cut" 89 00 > "$work/flipped"
    look_by tail_check.py "$work/flipped"
    expect 'two closed gates' 1 $'lsn 4\ngate at byte 44: 00\nbehind it: 135 bytes, 1 whole batches, to lsn 9\n' ''
    with_bytes "$work/third.log" 134 00 > "$work/cut"
    with_bytes "$work/cut" 139 00 > "$work/flipped"
    look_by tail_check.py "$work/flipped"
    expect 'a batch of no records behind the last gate' 0 $'lsn 14\ngate at byte 134: 00\nbehind it: 45 bytes, 0 whole batches\n' ''
    # A crash leaves the same of a batch whose gate wasn't opened yet; and what isn't whole is no batch.
    with_bytes "$work/first.log" 44 00 > "$work/flipped"
    look_by tail_check.py "$work/flipped"
    expect 'a batch that was being written' 1 $'lsn 4\ngate at byte 44: 00\nbehind it: 45 bytes, 1 whole batches, to lsn 9\n' ''
    head -c 88 "$work/flipped" > "$work/cut"
    look_by tail_check.py "$work/cut"
    expect 'a part of a batch that was being written' 0 $'lsn 4\ngate at byte 44: 00\nbehind it: 43 bytes, 0 whole batches\n' ''
}

# What can be kept up to each LSN is where the last whole batch ends; the program reads that front.
salvage_cases() {
    local lsn place end name digits want
    for lsn in 4 5 8 9 10 13 14 18 19 20 4294967295; do
        end=$((lsn < 19 ? 4 + (lsn - 4) / 5 * 5 : 19))
        look_by salvage.py "$work/third.log" "$lsn"
        place=$(sed -n 's/^place //p' "$work/out")
        expect_true "salvage up to lsn $lsn: place $place" [ "$place" = $((end * 9 + 8)) ]
        head -c "${place:-0}" "$work/third.log" > "$work/front_kept"
        on_file "$work/front_kept" recover
        expect_true "salvage up to lsn $lsn: $(head -n 1 "$work/out")" [ "$(head -n 1 "$work/out")" = "lsn $end" ]
    done
    look_by salvage.py "$work/third.log" 3
    expect 'salvage: nothing to keep' 1 '' 'salvage: no batch ends at lsn 3 or before'
    look_by salvage.py "$examples/upgraded.log" 8
    expect 'salvage: a head to keep' 0 $'place 44\nlsn 4\nlost: 1 batches, 46 bytes\n4 update 1 0 -30 0\n6 update 1 1 30 0\n8 commit 1 1\n' ''
    look_by salvage.py "$examples/README.md" 4
    expect 'salvage: no log' 7 '' 'aether: not a log'

    # A header that spells no record, and an account's last commit that never was, in the second of three runs.
    for name in 'bad record at lsn 9,94,00' 'unlawful record at lsn 9: prev,106,00000007'; do
        IFS=, read -r want place digits <<< "$name"
        with_bytes "$work/third.log" "$place" "$digits" > "$work/recipe/broken.log"
        on_file "$work/recipe/broken.log" recover
        expect "salvage: $want" 7 '' "aether: $want"
        look_by salvage.py "$work/recipe/broken.log" 9
        expect_true "salvage: $want: the place" [ "$(head -n 3 "$work/out" | tr '\n' ' ')" = 'place 89 lsn 9 lost: 2 batches, 91 bytes ' ]
        expect_true "salvage: $want: what is lost" grep -q '^18 commit 3 1$' "$work/out"
        { echo place=89; recipe 'When `recover` refuses a log' | tail -n 2; } > "$work/recipe.sh"
        (cd "$work/recipe" && bash -e "$work/recipe.sh" > "$work/out" 2> "$work/err")
        status=$?
        expect "salvage: $want: the front" 0 $'lsn 9\n0 97\n1 3\n' ''
        head -c 89 "$work/first.log" > "$work/wanted"
        expect_file "salvage: $want: the front" "$work/recipe/front.log" "$work/wanted"
    done
}

# What the recipe for a file that came from elsewhere does behind its first line, which keeps the list's end.
compare_recipe() {
    recipe 'A file that came from elsewhere' | tail -n 2 > "$work/recipe.sh"
    (cd "$work/recipe" && bash -e "$work/recipe.sh" > "$work/out" 2> "$work/err")
    status=$?
}

# It refuses a file that has less than was told.
elsewhere_cases() {
    recipe_folder
    ln -s "$examples" "$work/recipe/examples"
    cp "$work/third.log" "$work/recipe/bank.log"
    echo 19 > "$work/recipe/bank.lsn"
    compare_recipe
    expect 'recipe: a file that came from elsewhere' 0 $'lsn 19\ngate at byte 179: 00\nbehind it: 0 bytes, 0 whole batches\n' ''
    cp "$work/second.log" "$work/recipe/bank.log"
    compare_recipe
    expect 'recipe: a file that lacks a batch' 1 $'lsn 14\ngate at byte 134: 00\nbehind it: 0 bytes, 0 whole batches\n' ''
}

damage_cases() {
    local file length python
    if ! python=$(python3 -c 'import sys; print(sys.executable)' 2> /dev/null); then
        echo 'built_program: no python3, nothing of damage'
        return
    fi
    three_runs
    for file in "$examples"/*.log "$examples/README.md" /dev/null "$work/third.log"; do
        expect_tail "$file" "$file"
    done
    for file in "$examples/upgraded.log" "$work/second.log"; do
        for ((length = 0; length < $(wc -c < "$file"); length++)); do
            head -c "$length" "$file" > "$work/front_read"
            expect_tail "the first $length bytes of $file" "$work/front_read"
        done
    done
    flipped_gate_cases
    recipe_folder
    salvage_cases
    elsewhere_cases
}
