# `./aether` itself, in a small tree whose `rt` only writes down that it was called, and the completion of its words.

# A tree of the program, a crate that it stands on and one that it doesn't; all are older than the program, which is older than now.
wrapper_tree() {
    local tree=$1 name
    rm -rf "$tree"
    mkdir -p "$tree/.ci/lib" "$tree/docs" "$tree/bin" "$tree/crates/aether_cli/out"
    cp "$top/aether" "$top/README.md" "$tree"
    cp "$top/.ci/build" "$tree/.ci"
    cp "$top/.ci/lib/own_crates.awk" "$tree/.ci/lib"
    cp "$top/docs/aether.1" "$top/docs/MANUAL.md" "$tree/docs"
    cp "$program" "$tree/crates/aether_cli/out/aether_cli"
    for name in aether_cli lower beside; do
        mkdir -p "$tree/crates/$name/src" "$tree/crates/$name/specs" "$tree/crates/$name/proofs"
        : > "$tree/crates/$name/src/lib.rt"
    done
    : > "$tree/crates/aether_cli/stdin"
    printf '%s\n' '# the lowest' 'lower: arrayvec' 'aether_cli: lower' 'beside: aether_cli' > "$tree/crates.txt"
    printf '%s\n' '#!/bin/sh' "echo \"\$*\" >> '$tree/called'" "[ ! -e '$tree/fails' ] || exit 1" '[ "$1" != version ] || echo another kit' > "$tree/bin/rt"
    chmod 755 "$tree/bin/rt"
    find "$tree" -exec touch -d '2 hours ago' {} +
    touch -d '1 hour ago' "$tree/crates/aether_cli/out/aether_cli"
}

# Runs `./aether` there with these words, and expects how often it has called `rt` since the last time.
expect_built() {
    local name=$1 want_calls=$2 want_status=$3 want_out=$4 want_err=$5
    shift 5
    rm -f "$work/tree/called"
    PATH=$work/tree/bin:$PATH "$work/tree/aether" "$@" < "$examples/genesis.log" > "$work/out" 2> "$work/err"
    status=$?
    # A build says more than its last line.
    [ "$status" = 70 ] && sed -i -n '$p' "$work/err"
    [ "$want_calls" = 0 ] || [ "$status" = 70 ] || : > "$work/err"
    expect "aether: $name" "$want_status" "$want_out" "$want_err"
    expect_true "aether: $name: rt is called $want_calls times" [ "$(grep -cv version "$work/tree/called" 2> /dev/null || true)" = "${want_calls/#0/}" ]
}

wrapper_cases() {
    local tree=$work/tree built=$work/tree/crates/aether_cli/out/aether_cli
    wrapper_tree "$tree"
    expect_built 'a program that rt made' 0 0 "$genesis_text" '' recover
    expect_built 'a second call' 0 0 "$genesis_text" '' recover
    expect_built 'words that are not taken' 0 2 '' "$usage" recover --help
    mkdir -p "$tree/crates/added/src"
    : > "$tree/crates/added/src/lib.rt"
    echo 'added: lower' >> "$tree/crates.txt"
    touch "$tree/crates/beside/src/lib.rt" "$tree/crates/lower/proofs/Lib.antt"
    expect_built 'an added crate and one beside, and a proof' 0 0 "$genesis_text" '' recover
    : > "$tree/crates/lower/specs/Lib.antt"
    expect_built 'a new file of a crate below' 2 0 "$genesis_text" '' recover
    expect_built 'a call behind it' 0 0 "$genesis_text" '' recover
    echo >> "$tree/crates/lower/src/lib.rt"
    : > "$tree/fails"
    expect_built 'a build that fails' 1 70 '' "aether: an older one still stands, and runs so: $built recover .." recover
    expect_built 'a build that fails again' 1 70 '' "aether: an older one still stands, and runs so: $built recover .." recover
    rm "$tree/fails"
    expect_built 'a build that ends' 2 0 "$genesis_text" '' recover
    sed -i 's/^lower: .*/lower: itoa/' "$tree/crates.txt"
    expect_built 'another line of a crate below' 2 0 "$genesis_text" '' recover
    rm "$tree/crates/lower/specs/Lib.antt"
    expect_built 'a file that is gone' 2 0 "$genesis_text" '' recover
    touch "$built"
    expect_built 'a program that rt made anew' 0 0 "$genesis_text" '' recover
    ln -sf "$tree/aether" "$work/linked"
    "$work/linked" recover < "$examples/genesis.log" > "$work/out" 2> "$work/err"
    status=$?
    expect 'aether: by a link' 0 "$genesis_text" ''
    (cd "$tree" && sh aether recover) < "$examples/genesis.log" > "$work/out" 2> "$work/err"
    status=$?
    expect 'aether: by a name without a folder' 0 "$genesis_text" ''
    rm "$built"
    : > "$tree/fails"
    expect_built 'a build that fails, and no program' 1 70 '' 'aether: the program was not built' recover
    expect_true 'aether: --help' [ "$("$tree/aether" --help | grep -c 'aether statement ACCOUNT\|^# Manual')" -ge 1 ]
    expect_true 'aether: --version' [ "$("$tree/aether" --version)" = "aether of no commit, kit $(sed -n 's/.*`rt version` prints `\([^`]*\)`.*/\1/p' "$top/README.md")" ]
    completion_cases
}

# What the completion offers where the last of these words is being written.
offered() {
    # shellcheck source=/dev/null
    (cd "$work/logs" && . "$examples/aether.bash" && COMP_WORDS=(aether "$@") COMP_CWORD=$# && { _aether; printf '%s\n' "${COMPREPLY[@]}" | sort | tr '\n' ' '; })
}

completion_cases() {
    local words
    rm -rf "$work/logs"
    mkdir -p "$work/logs/a folder" && touch "$work/logs/a log.log" "$work/logs/b.log" "$work/logs/b.txt"
    # All that the usage line has in small letters, at its commands and at those of `run`.
    words=$(printf '%s' "${usage#usage: }" | tr '|' '\n' | awk '{ print ($1 == "aether" ? $2 : $1) }' | cat - <(printf '%s\n' --help --version) | sort | tr '\n' ' ')
    expect_true "completion: commands $(offered '')" [ "$(offered '')" = "$words" ]
    expect_true "completion: options $(offered run b.log --)" [ "$(offered run b.log --)" = '--ring --slots --wait --workers ' ]
    expect_true "completion: options of demo $(offered demo --w)" [ "$(offered demo --w)" = '--workers ' ]
    expect_true "completion: logs $(offered run '')" [ "$(offered cut '')" = 'a folder a log.log b.log ' ]
    expect_true 'completion: a log behind <' [ "$(offered recover '<' b)" = 'b.log ' ]
    expect_true 'completion: a number' [ "$(offered run --workers 1)" = '1 10 11 12 13 14 15 16 ' ]
    expect_true 'completion: none' [ "$(offered statement '')" = ' ' ]
}
