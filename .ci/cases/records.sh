# The program keep_lines: lines that are kept, files that it refuses, and kills.

own=$work/own.log

# Keeps these lines behind those of the file.
keep_on() {
    printf '%s' "$1" > "$work/script"
    on_file "$work/script" keep "$own"
}

# The file must hold these lines.
expect_kept() {
    on_file "$own" kept
    expect "$1, and what is kept" 0 "$2" ''
}

# A file that isn't one of records stays as it is.
expect_no_records() {
    local name=$1 want=$2
    cp "$own" "$work/before"
    keep_on $'three\n'
    expect "keep on $name" 1 '' "keep_lines: $want"
    expect_file "keep on $name" "$own" "$work/before"
    on_file "$own" kept
    expect "kept of $name" 1 '' "keep_lines: $want"
}

line_cases() {
    local length file
    rm -f "$own"
    keep_on $'one\ntwo\n'
    expect 'keep' 0 $'one\ntwo\n' ''
    { printf 'ORECORDSO\0\0\0\3oneO\0\0\0\3two\0'; } > "$work/two"
    expect_file 'keep' "$own" "$work/two"
    for ((length = 0; length <= 9; length++)); do
        printf 'RECORDSO\0' | head -c "$length" > "$own"
        expect_kept "the first $length bytes of a file that is made" ''
        keep_on $'one\ntwo\n'
        expect "keep on $length bytes of a file that is made" 0 $'one\ntwo\n' ''
        expect_kept "keep on $length bytes of a file that is made" $'one\ntwo\n'
    done
    for ((length = 18; length < 24; length++)); do
        head -c "$length" "$work/two" > "$own"
        expect_no_records "$length bytes of two lines" 'bad record'
    done
    for ((length = 16; length <= 17; length++)); do
        head -c "$length" "$work/two" > "$own"
        keep_on $'two\n'
        expect 'keep behind a gate that opens nothing' 0 $'two\n' ''
        expect_file 'keep behind a gate that opens nothing' "$own" "$work/two"
    done
    { head -c 24 "$work/two"; printf '\0the end of a record'; } > "$own"
    keep_on $'3\n'
    expect 'keep over a torn end' 0 $'3\n' ''
    expect_kept 'keep over a torn end' $'one\ntwo\n3\n'
    printf 'an old text' > "$own"
    expect_no_records 'a text' 'not a file of records'
    cp "$examples/one_transfer.log" "$own"
    expect_no_records 'a log' 'not a file of records'
    rm "$own"
    { head -c 65536 /dev/zero | tr '\0' a; echo; } > "$work/long"
    on_file "$work/long" keep "$own"
    expect_file 'keep a long line' "$work/out" "$work/long"
    { printf a; cat "$work/long"; } > "$work/longer"
    echo > "$work/empty"
    for file in "$work/longer" "$work/empty"; do
        on_file "$file" keep "$own"
        expect 'keep a line that is too long, or empty' 1 '' 'keep_lines: a line has 1 to 65536 bytes'
    done
    on_file "$own" kept
    expect_file 'keep a long line, and what is kept' "$work/out" "$work/long"
    on_file "$own" recover
    expect 'keep_lines recover' 1 '' 'keep_lines: usage: keep_lines keep LOG | kept'
}

# Two hundred kills, each a little later: what was told is kept, and at most one line more.
kill_keep_cases() {
    local place told kept
    seq -f 'line %.0f' 100000 > "$work/lines"
    rm -f "$own" "$work/told"
    touch "$own" "$work/told"
    for ((place = 0; place < 200; place++)); do
        kept=$(wc -l < "$work/told")
        tail -n +$((kept + 1)) "$work/lines" > "$work/left"
        { timeout -s KILL "0.$(printf '%04d' $((place * place % 400)))1" "$program" keep "$own" < "$work/left" >> "$work/told"; } 2> /dev/null
        expect_true "keep: kill $place, status $?" [ "$?" = 137 ]
        on_file "$own" kept
        told=$(wc -l < "$work/told") kept=$(wc -l < "$work/out")
        expect_true "keep: kill $place: $told lines were told, $kept are kept" [ "$kept" -le $((told + 1)) ]
        expect_true "keep: kill $place: what was told is kept" cmp -s -n "$(wc -c < "$work/told")" "$work/told" "$work/out"
        expect_file "keep: kill $place" "$work/out" <(head -n "$kept" "$work/lines")
        cp "$work/out" "$work/told"
    done
    expect_true "keep: $kept lines are kept" [ "$kept" -gt 20 ]
}

# As each of the two compilers builds it.
record_cases() {
    for program in "$top/crates/keep_lines/out/keep_lines" "$top/crates/keep_lines/out/keep_lines.by-rattle"; do
        if [ ! -x "$program" ]; then
            echo "built_program: $program isn't there, skipped"
            continue
        fi
        line_cases
        kill_keep_cases
    done
    if [ -s "$own" ] && [ "${#programs[@]}" != 0 ]; then
        program=${programs[0]}
        on_file "$own" recover
        expect 'recover of a file of records' 7 '' 'aether: not a log'
    fi
}
