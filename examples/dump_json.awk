# A log as JSON, one object a line: aether dump < LOG | awk -f examples/dump_json.awk

# A note, which is ASCII, as a string of JSON.
function quoted(note,    at, char, out) {
    for (at = 1; at <= length(note); at++) {
        char = substr(note, at, 1)
        out = out (char == "\"" || char == "\\" ? "\\" char : char)
    }
    return "\"" out "\""
}

$1 == "lsn" { printf "{\"kind\":\"end\",\"lsn\":%s}\n", $2; next }
$1 == "snapshot" { printf "{\"kind\":\"snapshot\",\"lsn\":%s,\"txn\":%s}\n", $2, $3; next }
$1 == "account" { printf "{\"kind\":\"account\",\"account\":%s,\"balance\":%s,\"last_commit\":%s}\n", $2, $3, $4; next }
{ printf "{\"lsn\":%s,\"kind\":\"%s\",", $1, $2 }
$2 == "genesis" { printf "\"account\":%s,\"balance\":%s}\n", $3, $4 }
$2 == "update" { printf "\"txn\":%s,\"account\":%s,\"delta\":%s,\"prev\":%s}\n", $3, $4, $5, $6 }
$2 == "commit" { printf "\"txn\":%s,\"legs\":%s}\n", $3, $4 }
$2 == "short" || $2 == "over" { printf "\"txn\":%s,\"leg\":%s}\n", $3, $4 }
$2 == "note" { note = $0; sub(/^[0-9]+ note [0-9]+ /, "", note); printf "\"txn\":%s,\"text\":%s}\n", $3, quoted(note) }
