# The commands `asof` and `statement`.

views=$work/views

# Makes the logs that the rows name, by running scripts of one worker. In `legs` the first transfer's note takes 3 units and its updates 12, so it ends at
# 4 + 3 + 12 + 1; the second is for nothing and ends 9 units later; the third is refused at its first leg, and ends a unit later; the fourth at its second,
# behind 4 units of updates; the fifth has 5 units, and ends at 40.
make_views() {
    rm -rf "$views"
    mkdir "$views"
    cp "$examples"/*.log "$views"
    run_on "$examples/one_transfer.log" $'pay 1 0 30\n' --workers 1
    cp "$log" "$views/back.log"
    run_on "$cut_log" $'pay 1 0 30\n' --workers 1
    cp "$log" "$views/cut_back.log"
    run_on "$examples/genesis.log" $'pay 0 1 40 0 1 5 1 0 15 : in three legs\npay 0 1 7 1 0 7\npay 1 0 99\npay 1 0 20 1 0 20\npay 0 1 1\n' --workers 1
    cp "$log" "$views/legs.log"
    printf '2147483647\n0\n' > "$work/rich"
    rm -f "$log"
    "$program" new "$log" < "$work/rich" > /dev/null
    cp "$log" "$views/rich.log"
    run_on "$views/rich.log" $'pay 0 1 2147483647\npay 1 0 2147483647\n' --workers 1
    cp "$log" "$views/all.log"
    printf '4611686018427387903\n0\n' > "$work/rich"
    rm -f "$log"
    "$program" new "$log" < "$work/rich" > /dev/null
    cp "$log" "$views/greatest.log"
    run_on "$views/greatest.log" $'pay 0 1 2147483647\npay 1 0 2147483647\n' --workers 1
    cp "$log" "$views/greatest_back.log"
    # shellcheck disable=SC2046
    { head -c 44 "$examples/genesis.log"; batch_of $(eight_legs); } > "$views/eight.log"
    # shellcheck disable=SC2046
    { head -c 44 "$views/greatest.log"; batch_of $(eight_legs); } > "$views/greatest_eight.log"
    { log_of "${thirty_units[@]}" | head -c -1; printf 'O'; } > "$views/lone_gate.log"
    log_of 0202000000000007 FFFFFFE200000000 0202000100000007 0000001E00000000 "${thirty_units[@]}" > "$views/open_before.log"
}

# The units of four legs of 2147483647 there and four back, which no run makes of an account with 100: the list is lawful all the same, as it is the balances
# after a Commit that count.
eight_legs() {
    local leg
    for leg in 0 0 0 0 1 1 1 1; do
        echo "0202000${leg}00000001" 8000000100000000 "0202000$((1 - leg))00000001" 7FFFFFFF00000000
    done
    echo 0301000800000001
}

# A row: LOG, the command with its number, the status, and the text or the line, with \n between lines. At once, in pieces of 1 and 7 bytes, and where
# calls are interrupted.
viewed() {
    local source=$1 words=$2 want_status=$3 said=$4 text='' fault='' what
    if [ "$want_status" = 0 ]; then text=$(printf '%b' "$said")$'\n'; else fault="aether: $said"; fi
    for what in '' PIECE=1 PIECE=7 INTERRUPTS=1; do
        # shellcheck disable=SC2086
        if [ -z "$what" ]; then
            on_file "$views/$source.log" $words
        else
            [ -n "$calls" ] || continue
            on_file_so "$what" "$views/$source.log" $words
        fi
        expect "$words of $source $what" "$want_status" "$text" "$fault"
    done
}

row_cases() {
    local source words want said
    make_views
    while IFS='|' read -r source words want said; do
        viewed "$source" "$words" "$want" "$said"
    done << 'END'
one_transfer|asof 4|0|lsn 4\n0 100\n1 0
one_transfer|asof 6|0|lsn 6\n0 100\n1 0
one_transfer|asof 8|0|lsn 8\n0 100\n1 0
one_transfer|asof 9|0|lsn 9\n0 70\n1 30
one_transfer|asof 2|0|lsn 2\n0 100
one_transfer|asof 0|0|lsn 0
one_transfer|asof 5|13|no record boundary at lsn 5
one_transfer|asof 10|13|no record boundary at lsn 10
one_transfer|asof 4294967295|13|no record boundary at lsn 4294967295
one_transfer|statement 0|0|open 100\n9 1 -30 70\nlsn 9
one_transfer|statement 1|0|open 0\n9 1 30 30\nlsn 9
one_transfer|statement 2|15|no account 2
one_transfer|statement 4095|15|no account 4095
lone_gate|asof 9|0|lsn 9\n0 70\n1 30
lone_gate|statement 1|0|open 0\n9 1 30 30\nlsn 9
open_before|statement 1|0|open 0\n13 1 30 30\nlsn 13
open_before|asof 12|0|lsn 12\n0 100\n1 0
back|statement 0|0|open 100\n9 1 -30 70\n14 2 30 100\nlsn 14
back|statement 1|0|open 0\n9 1 30 30\n14 2 -30 0\nlsn 14
back|statement 2|15|no account 2
back|asof 13|0|lsn 13\n0 70\n1 30
back|asof 14|0|lsn 14\n0 100\n1 0
genesis|statement 0|0|open 100\nlsn 4
genesis|asof 3|13|no record boundary at lsn 3
unfinished_transfer|statement 0|0|open 100\nlsn 8
unfinished_transfer|asof 8|0|lsn 8\n0 100\n1 0
greatest_transaction|statement 1|0|open 0\nlsn 5
wrong_predecessor|asof 4|7|unlawful record at lsn 4: prev
wrong_predecessor|statement 9|7|unlawful record at lsn 4: prev
cut|statement 0|0|open 70\nlsn 9
cut|statement 1|0|open 30\nlsn 9
cut|statement 2|15|no account 2
cut|asof 9|0|lsn 9\n0 70\n1 30
cut|asof 8|13|no record boundary at lsn 8
cut|asof 0|13|no record boundary at lsn 0
cut_back|statement 0|0|open 70\n14 2 30 100\nlsn 14
cut_back|asof 4|13|no record boundary at lsn 4
cut_back|asof 9|0|lsn 9\n0 70\n1 30
cut_back|asof 13|0|lsn 13\n0 70\n1 30
cut_back|asof 14|0|lsn 14\n0 100\n1 0
upgraded|statement 0|0|open 100\n9 1 -30 70\nlsn 9
upgraded|asof 4|0|lsn 4\n0 100\n1 0
upgraded|asof 2|13|no record boundary at lsn 2
legs|statement 0|0|open 100\n20 1 -30 70\n29 2 0 70\n40 5 -1 69\nlsn 40
legs|statement 1|0|open 0\n20 1 30 30\n29 2 0 30\n40 5 1 31\nlsn 40
legs|asof 34|0|lsn 34\n0 70\n1 30
legs|asof 39|0|lsn 39\n0 70\n1 30
rich|asof 2|0|lsn 2\n0 2147483647
all|statement 0|0|open 2147483647\n9 1 -2147483647 0\n14 2 2147483647 2147483647\nlsn 14
all|statement 1|0|open 0\n9 1 2147483647 2147483647\n14 2 -2147483647 0\nlsn 14
greatest|asof 2|0|lsn 2\n0 4611686018427387903
greatest|statement 0|0|open 4611686018427387903\nlsn 4
greatest_back|statement 0|0|open 4611686018427387903\n9 1 -2147483647 4611686016279904256\n14 2 2147483647 4611686018427387903\nlsn 14
greatest_back|statement 1|0|open 0\n9 1 2147483647 2147483647\n14 2 -2147483647 0\nlsn 14
greatest_back|asof 9|0|lsn 9\n0 4611686016279904256\n1 2147483647
greatest_back|asof 14|0|lsn 14\n0 4611686018427387903\n1 0
greatest_eight|statement 0|0|open 4611686018427387903\n37 1 0 4611686018427387903\nlsn 37
greatest_eight|statement 1|0|open 0\n37 1 0 0\nlsn 37
greatest_eight|asof 37|0|lsn 37\n0 4611686018427387903\n1 0
wide_balances|statement 0|0|open 9007199254740994\n9 1 -1 9007199254740993\nlsn 10
wide_balances|statement 1|0|open 4611686018427387902\n9 1 1 4611686018427387903\nlsn 10
wide_balances|asof 8|0|lsn 8\n0 9007199254740994\n1 4611686018427387902
eight|statement 0|0|open 100\n37 1 0 100\nlsn 37
eight|statement 1|0|open 0\n37 1 0 0\nlsn 37
eight|asof 36|0|lsn 36\n0 100\n1 0
eight|asof 37|0|lsn 37\n0 100\n1 0
END
}

# At the end of any log `asof` is `recover`.
end_of_log_cases() {
    local file end
    for file in "$views"/*.log; do
        "$program" recover < "$file" > "$work/told" 2> /dev/null || continue
        end=$(sed -n 's/^lsn //p' "$work/told")
        on_file "$file" asof "$end"
        mv "$work/out" "$work/text"
        : > "$work/out"
        expect "asof at the end of ${file##*/}" 0 '' ''
        expect_file "asof at the end of ${file##*/}" "$work/text" "$work/told"
    done
}

# Inputs and outputs that fail; at status 5 a part of the text is written.
view_fault_cases() {
    local words
    for words in 'asof 4' 'statement 0'; do
        # shellcheck disable=SC2086
        {
            on_file / $words
            expect "$words: an input that is a folder" 4 '' 'aether: read failed'
            "$program" $words <&- > "$work/out" 2> "$work/err"
            status=$?
            expect "$words: a closed input" 4 '' 'aether: read failed'
            : > "$work/out"
            "$program" $words < "$examples/one_transfer.log" > /dev/full 2> "$work/err"
            status=$?
            expect "$words: a full device" 5 '' 'aether: write failed'
            "$program" $words < "$examples/one_transfer.log" 2> "$work/err" >&-
            status=$?
            expect "$words: a closed output" 5 '' 'aether: write failed'
        }
    done
}

# Statements of each account of a demo log, whose 3000 transfers have two accounts each: the nets sum to 0, and the last balances are those of `recover`. awk's
# sums are doubles, exact up to 2^53: here they are below 2^27.
demo_view_cases() {
    local account end
    rm -f "$log"
    "$program" demo "$log" 3000 7 > /dev/null
    "$program" recover < "$log" > "$work/accounts"
    end=$(sed -n 's/^lsn //p' "$work/accounts")
    for account in $(seq 0 63); do
        "$program" statement "$account" < "$log" | sed "s/^/$account /"
    done > "$work/statements"
    awk -v end="$end" 'NF == 5 { net += $4; entries++ }
        NF == 5 || $2 == "open" { balance[$1] = $NF }
        $2 == "lsn" { if ($3 != end) print "another end:", $0; ends++ }
        END { print "lsn", end; for (account = 0; account < 64; account++) print account, balance[account]; print net, entries, ends }' \
        "$work/statements" > "$work/summed"
    { cat "$work/accounts"; echo '0 6000 64'; } > "$work/wanted"
    expect_file 'statements of each account of a demo log' "$work/summed" "$work/wanted"
}

# A little more memory from one run to the next, on a log of 1.2 MB: the whole answer, or that there is no memory.
view_memory_cases() {
    local most end
    rm -f "$log"
    "$program" demo "$log" 30000 7 > /dev/null
    "$program" recover < "$log" > "$work/accounts"
    "$program" statement 63 < "$log" > "$work/entries"
    end=$(sed -n 's/^lsn //p' "$work/accounts")
    for ((most = 4000; most <= 14000; most += 1000)); do
        { on_file_within "$most" "$log" statement 63; } 2> /dev/null
        expect_within "$most" statement "$work/entries"
        { on_file_within "$most" "$log" asof "$end"; } 2> /dev/null
        expect_within "$most" asof "$work/accounts"
    done
}

# Asks for the accounts at so many boundaries of a log, drawn by lot where it has more, and prints how many answers are what the lines of its dump before that
# come to, and of how many.
asked_boundaries() {
    python3 - "$program" "$@" << 'END'
import random, subprocess, sys
from concurrent.futures import ThreadPoolExecutor
program, log, dump, most = sys.argv[1:]
lines = [line.split() for line in open(dump)]
balances = {int(words[1]): int(words[2]) for words in lines if words[0] == "account"}
records = [words for words in lines if words[0].isdigit()]
end = int(lines[-1][1])
drawn = {end, *random.Random(33).sample([int(words[0]) for words in records], min(int(most) - 1, len(records)))}
updates, wanted = {}, {}
def note(lsn):
    if lsn in drawn:
        wanted[lsn] = "".join([f"lsn {lsn}\n", *(f"{account} {balance}\n" for account, balance in sorted(balances.items()))])
for at, kind, *words in records:
    note(int(at))
    if kind == "genesis":
        balances[int(words[0])] = int(words[1])
    elif kind == "update":
        updates.setdefault(words[0], []).append((int(words[1]), int(words[2])))
    elif kind == "commit":
        for account, change in updates.pop(words[0]):
            balances[account] += change
note(end)
def is_right(lsn):
    with open(log) as given:
        return subprocess.run([program, "asof", str(lsn)], stdin=given, capture_output=True, text=True).stdout == wanted[lsn]
with ThreadPoolExecutor(2) as pool:
    print(sum(pool.map(is_right, wanted)), len(drawn))
END
}

# All answers at so many boundaries of a log must be right.
replayed_case() {
    local name=$1 source=$2 count=$3
    "$program" dump < "$source" > "$work/dump"
    asked_boundaries "$source" "$work/dump" "$count" > "$work/out" 2> "$work/err"
    status=$?
    expect "asof at $count boundaries of $name" 0 "$count $count"$'\n' ''
}

# Of the first two logs each line of the dump is asked for, and the end. The lines of `legs` are 2 of Genesis; a note, 6 updates and a commit; 4 and a commit;
# a refusal; 2 and a refusal; 2 and a commit.
replayed_cases() {
    replayed_case 'a log of legs' "$views/legs.log" 23
    replayed_case 'a log that goes on from a cut' "$views/cut_back.log" 4
    rm -f "$log"
    "$program" demo "$log" 100000 7 > /dev/null
    replayed_case '100,000 transfers' "$log" 1000
    read_as_plain logs
}

# The manual's recipes.
view_recipe_cases() {
    recipe_folder
    ln -s "$examples" "$work/recipe/examples"
    run_recipe 'A disputed payment'
    expect 'recipe: a disputed payment' 0 $'9 note 2 rent of May\nopen 100\n9 1 -30 70\n17 2 10 80\nlsn 17\nlsn 9\n0 70\n1 30\n' ''
    recipe_folder
    run_recipe 'Statements of all accounts'
    expect 'recipe: statements of all accounts' 0 $'0\n' ''
}

view_cases() {
    row_cases
    end_of_log_cases
    view_fault_cases
    demo_view_cases
    view_memory_cases
    view_recipe_cases
    if command -v python3 > /dev/null; then replayed_cases; fi
}
