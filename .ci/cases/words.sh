# Command lines that aren't taken.

# Words that aren't taken. No file is made for them.
word_cases() {
    local words folder=$work/words
    rm -rf "$folder"
    mkdir "$folder"
    cd "$folder" || exit 1
    for words in '' 'move log' 'recover twice' 'recove' 'dump twice' 'dumps' 'dump --help' '--help' '-h' 'help' '--version' \
        'new' 'new a b' 'new --help' 'new -x' 'recover --help' 'help new' \
        'run' 'run a b' 'Run a' 'run -- a b' 'run -x' 'run --help' 'run a --help' 'help run' 'run a --workers' 'run a --workers=' \
        'run a --workers 0' 'run a --workers 17' 'run a --workers 01' 'run a --workers +2' 'run a --workers two' 'run a --workers -1' \
        'run a --workers 4294967297' 'run a --workers 1 --workers 1' 'run a --work 1' \
        'run a --ring' 'run a --ring 512' 'run a --ring 1000' 'run a --ring 2097152' 'run a --slots 17' 'run a --slots -1' \
        'run a --wait --wait' 'run a --wait=x' 'run a -w' \
        'demo' 'demo a 1' 'demo a 1 1 1' 'demo a 100001 1' 'demo a 1 65537' 'demo a 01 1' 'demo a -3 7' 'demo a 1 1 --wait' \
        'demo a 1 1 --workers 0' 'demo a 1 1 --workers 17' 'demo a 1 1 --workers 01' 'demo a 1 1 --workers +2' 'demo a 1 1 --workers=' \
        'demo a 1 1 --workers two' 'demo a 1 1 --workers 4 --workers 4' 'demo a 1 1 --ring 1000' \
        'cut' 'cut a b' 'cuts a' 'Cut a' 'cut -x' 'cut --help' 'cut a --help' 'help cut' 'cut a --workers 1' 'cut a --wait' \
        'upgrade' 'upgrade a b' 'upgrades a' 'upgrade -x' 'upgrade --help' 'help upgrade' 'upgrade a --slots 1' \
        'ship' 'ship a' 'ship 4 4' 'ship 04' 'ship -1' 'ship +4' 'ship 4294967296' 'ship 99999999999999999999' 'ships 4' 'ship --help' 'help ship' \
        'follow' 'follow a b' 'follows a' 'follow -x' 'follow --help' 'help follow' 'follow a --wait' \
        'asof' 'asof a' 'asof 4 4' 'asof 04' 'asof -1' 'asof 4294967296' 'asof --help' 'asof a.log 4' \
        'statement' 'statement a' 'statement 0 0' 'statement 00' 'statement -1' 'statement 4096' 'statements 0' 'statement --help'; do
        # shellcheck disable=SC2086
        on_file "$examples/genesis.log" $words
        expect "words '$words'" 2 '' "$usage"
    done
    for words in run demo ship asof statement; do
        case $words in run) set -- run a --workers '' ;; demo) set -- demo a 1 1 --workers '' ;; *) set -- "$words" '' ;; esac
        on_file "$examples/genesis.log" "$@"
        expect "$words: an empty number" 2 '' "$usage"
    done
    for words in $'\xff' $'run \xff'; do
        # shellcheck disable=SC2086
        on_file "$examples/genesis.log" $words
        expect 'a word that is no text' 2 '' "$usage"
    done
    ls -A > "$work/listed"
    expect_file 'words that are not taken make no file' "$work/listed" /dev/null
    cd "$top" || exit 1
}
