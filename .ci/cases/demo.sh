# The command `demo`.

demo_cases() {
    local log=$work/demo.log three many options name
    three=$(summary_of 3 2080000080)
    many=$(summary_of 5000 2079991273)
    for options in '' '--workers 1' '--ring=1024 --slots 0' '--workers 2 --ring 2048 --slots 1' '--slots 16' '--workers 3' '--workers 16 --slots 16'; do
        rm -f "$log"
        # shellcheck disable=SC2086
        on_file / demo "$log" 3 7 $options
        expect "demo $options" 0 "${three%.}" ''
    done
    on_file "$log" recover
    awk '{ sum += $2 } END { print NR, sum }' "$work/out" > "$work/counted"
    cp "$work/counted" "$work/out"
    expect 'recover on what demo left' 0 $'65 64000143\n' ''
    cp "$log" "$work/left.log"
    on_file / demo "$log" 3 7
    expect 'demo: a log that exists' 10 '' 'aether: log exists'
    expect_file 'demo: a log that exists' "$log" "$work/left.log"
    for options in '--workers 2 --ring 1024' '--workers 1' '--workers 3' '--workers 4 --ring 1024' '--workers 16 --ring 1024'; do
        rm -f "$log"
        # shellcheck disable=SC2086
        on_file /dev/null demo "$log" 5000 7 $options
        expect "demo of 5000 $options" 0 "${many%.}" ''
    done
    rm -f "$log"
    : > "$work/out"
    "$program" demo "$log" 3 7 > /dev/full 2> "$work/err"
    status=$?
    expect 'demo: a full device' 5 '' 'aether: write failed'
    for name in "$work" "$work/missing/demo.log" '' /dev/full; do
        on_file /dev/null demo "$name" 3 7
        expect "demo on '$name'" 6 '' 'aether: disk failed'
    done
}
