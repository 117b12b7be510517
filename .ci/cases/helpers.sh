# What the cases of `.ci/built_program` share: how the program is run, and what is expected of it. All of them count in $passed and $failed.

usage='usage: aether new LOG | run LOG [--workers N] [--ring R] [--slots K] [--wait] | recover | dump | demo LOG N SEED [--workers N] [--ring R] [--slots K] | cut LOG | upgrade LOG | ship FROM | follow LOG | asof LSN | statement ACCOUNT'
genesis_text=$'lsn 4\n0 100\n1 0\n'

# A case: its name, the status, the output and the line on standard error that are wanted. The run before it left its own in
# $status, $work/out and $work/err.
expect() {
    local name=$1 want_status=$2 want_out=$3 want_err=$4 out err
    IFS= read -r -d '' out < "$work/out"
    IFS= read -r -d '' err < "$work/err"
    [ -n "$want_err" ] && want_err=$want_err$'\n'
    if [ "$status" = "$want_status" ] && [ "$out" = "$want_out" ] && [ "$err" = "$want_err" ]; then
        passed=$((passed + 1))
    else
        failed=$((failed + 1))
        printf '%s: %s: status %s, wanted %s; output %q, wanted %q; error %q, wanted %q\n' \
            "$program" "$name" "$status" "$want_status" "$out" "$want_out" "$err" "$want_err"
    fi
}

# A file must hold what another holds.
expect_file() {
    local name=$1 file=$2 want=$3
    if cmp -s "$file" "$want"; then
        passed=$((passed + 1))
    else
        failed=$((failed + 1))
        printf '%s: %s: %s holds %q\n' "$program" "$name" "$file" "$(od -An -c "$file" 2>&1 | head -n 20)"
    fi
}

# A condition must hold.
expect_true() {
    local name=$1
    shift
    if "$@"; then
        passed=$((passed + 1))
    else
        failed=$((failed + 1))
        printf '%s: %s\n' "$program" "$name"
    fi
}

# Runs the program with these words on a file. One that hangs has status 124.
on_file() {
    local input=$1
    shift
    timeout 600 "$program" "$@" < "$input" > "$work/out" 2> "$work/err"
    status=$?
}

# Runs the program with these words on a file, with so many kilobytes of memory. One that hangs has status 124.
on_file_within() {
    local most=$1 input=$2
    shift 2
    timeout 600 bash -c 'ulimit -s 8192 && ulimit -v "$1" && shift && exec "$@"' - "$most" "$program" "$@" \
        < "$input" > "$work/out" 2> "$work/err"
    status=$?
}

# A library that stands before the system's calls, for what no input brings about; empty where there is no compiler for it. The kit has one.
calls=$work/calls.so
build_calls() {
    local compiler kit
    kit=$(dirname "$(readlink -f "$(command -v rt)")")/../toolchain/bin/clang
    for compiler in cc gcc clang "$kit -fuse-ld=lld"; do
        # shellcheck disable=SC2086
        $compiler -shared -fPIC -nostdlib -o "$calls" "$top/.ci/calls.c" 2> /dev/null && return
    done
    calls=
    echo "built_program: no compiler for .ci/calls.c, nothing of interrupted calls, of file systems without locks, and of what is synced"
}

# Runs the program as `on_file` does, behind that library, which is told so what to do.
on_file_so() {
    local what=$1 input=$2
    shift 2
    timeout 600 env "$what" LD_PRELOAD="$calls" "$program" "$@" < "$input" > "$work/out" 2> "$work/err"
    status=$?
}

# Runs the script over a copy of the log.
run_on() {
    local source=$1 script=$2
    shift 2
    cp "$source" "$log"
    printf '%s' "$script" > "$work/script"
    on_file "$work/script" run "$log" "$@"
}

# The log must hold the list of the two accounts and these further lines of its dump.
expect_list() {
    on_file "$log" dump
    expect "$1, and its list" 0 $'0 genesis 0 100\n2 genesis 1 0\n'"$2" ''
}

# What a command wrote within so many kilobytes: all of it, or nothing, as there is no memory. Too little for the system to begin the program has another
# status.
expect_within() {
    local most=$1 name=$2 want=$3
    mv "$work/out" "$work/told"
    : > "$work/out"
    case $status in
    0) expect_file "$name within $most kilobytes" "$work/told" "$want" ;;
    1)
        expect "$name within $most kilobytes" 1 '' 'aether: out of memory'
        expect_file "$name within $most kilobytes" "$work/told" /dev/null
        ;;
    *) expect_true "$name within $most kilobytes: status $status" [ "$most" -lt 8000 ] ;;
    esac
}

# The bytes of these pairs of digits.
bytes_of() {
    local digits
    digits=$(printf '%s' "$@")
    # shellcheck disable=SC2059
    printf "$(printf '%s' "$digits" | sed 's/../\\x&/g')"
}

# The log of two accounts with 100 and 0, and a batch of these units behind it.
log_of() {
    head -c 44 "$examples/genesis.log"
    bytes_of 4F "$(printf '%08x' $#)" "$@" 00
}

# The summary of so many transfers of seed 7.
summary_of() {
    printf 'transfers %s\ndone %s\nrefused 0\nlsn %s\ntotal 64000000\nmix %s\n.' "$1" "$1" "$((128 + 5 * $1))" "$2"
}
