# The command `new`.

new_cases() {
    local folder=$work/new log=$work/new/bank.log
    rm -rf "$folder"
    mkdir "$folder"
    printf '100\n0\n' > "$work/balances"
    on_file "$work/balances" new "$log"
    expect 'a new log' 0 "$genesis_text" ''
    expect_file 'a new log' "$log" "$examples/genesis.log"
    on_file "$log" recover
    expect 'recover on a new log' 0 "$genesis_text" ''
    on_file "$work/balances" new "$log"
    expect 'a log that exists' 10 '' 'aether: log exists'
    expect_file 'a log that exists' "$log" "$examples/genesis.log"
    (cd "$folder" && "$program" new -- -x.log < "$work/balances" > "$work/out" 2> "$work/err")
    status=$?
    expect 'a bare name that begins as a flag' 0 "$genesis_text" ''
    expect_file 'a bare name that begins as a flag' "$folder/-x.log" "$examples/genesis.log"
    printf 'an old text' > "$folder/old"
    on_file "$work/balances" new "$folder/old"
    expect 'a file that is no log' 0 "$genesis_text" ''
    expect_file 'a file that is no log' "$folder/old" "$examples/genesis.log"

    on_file /dev/null new "$folder/none"
    expect 'an input without a line' 3 '' 'aether: line 1 refused'
    expect_file 'an input without a line' "$folder/none" /dev/null
    printf '100\n\n' > "$work/blank"
    on_file "$work/blank" new "$folder/none"
    expect 'an empty line' 3 '' 'aether: line 2 refused'
    yes 1 | head -n 4097 > "$work/many"
    on_file "$work/many" new "$folder/none"
    expect 'a line too many' 3 '' 'aether: line 4097 refused'
    on_file / new "$folder/none"
    expect 'new: an input that is a folder' 4 '' 'aether: read failed'
    expect_file 'new: an input that is a folder' "$folder/none" /dev/null
    "$program" new "$folder/told" < "$work/balances" > /dev/full 2> "$work/err"
    status=$?
    : > "$work/out"
    expect 'new: a full device' 5 '' 'aether: write failed'
    expect_file 'new: a full device' "$folder/told" "$examples/genesis.log"
    local name
    for name in "$folder" "$folder/missing/bank.log" '' /proc/bank.log /dev/full "$log/bank.log"; do
        on_file "$work/balances" new "$name"
        expect "new on '$name'" 6 '' 'aether: disk failed'
    done
}
