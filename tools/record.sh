# Records: read by ../avulgjesh. `record` writes one text file that ties an answer to its table and its program; `verify` runs the table of
# a record again and says what is the same. docs/RECORD.md has the format.

FORMAT=1
# The rules that rows are computed by: the tick, and the requests that replaced sentences of the paper, as docs/CORRECTIONS.md has them.
TICK=80
REQUESTS=M-103
MOST_RECORD=3000000

# ---- bytes in hexadecimal, 32 a line, and back
hex_of() { od -An -v -tx1 "$1" | tr -d ' \n' | fold -w 64; } # FILE

bytes_of() { # FILE of hexadecimal lines
    awk '
        BEGIN { for (i = 0; i < 256; i++) octal[sprintf("%02x", i)] = sprintf("\\%03o", i) }
        { for (i = 1; i < length($0); i += 2) printf "%s", octal[substr($0, i, 2)]; print "" }' "$1" |
        while IFS= read -r escapes; do
            # shellcheck disable=SC2059
            printf "$escapes" || exit 1
        done
}

# ---- a record
rules() { printf 'tick-ns %s\nrequests %s\n' "$TICK" "$REQUESTS"; }

record_of() { # NAME TABLE ANSWER: the record's lines but the last; the stamp is the program's
    sha_of "$2"
    echo "avulgjesh-record $FORMAT"
    rules
    printf 'table-name %s\ntable-length %s\ntable-sha256 %s\ntable-bytes\n' "$1" "$(($(wc -c <"$2")))" "$sha"
    hex_of "$2" || return
    [ ! -s "$2" ] || echo
    echo answer
    cat "$3" || return
    sha_of "$3"
    printf 'answer-sha256 %s\n' "$sha"
    cat "$stamp"
}

record() {
    take "$1" "$work/table" "$MOST_TABLE" || return
    program_ready
    answered=0
    analyse "$work/table" "$work/answer" || answered=$?
    # The table's name is the file's own; what is no file has none.
    called=-
    if [ "$1" != - ] && [ -f "$1" ]; then
        escape "${1##*/}"
        called=$escaped
        [ "$called" != - ] || called='\055'
    fi
    record_of "$called" "$work/table" "$work/answer" >"$work/out" || die 3 "a private file cannot be written"
    sha_of "$work/out"
    printf 'record-sha256 %s\n' "$sha" >>"$work/out" || die 3 "a private file cannot be written"
    put "$work/out"
    return "$answered"
}

# ---- reading one
# Takes a record apart: $work/fields has its lines of one value, $work/hex the table's, $work/old the answer's. Anything that is not
# such a record, line for line, fails.
apart() { # RECORD
    [ -z "$(tr -d '\n -~' <"$1" | head -c 1 | od -An -to1)" ] || return 1
    [ "$(tail -c 1 "$1" | od -An -to1 | tr -d ' ')" = 012 ] || return 1
    : >"$work/hex"
    : >"$work/old"
    awk -v hex="$work/hex" -v old="$work/old" '
        function is(name, shape) {
            if (index($0, name " ") != 1) return 0
            return substr($0, length(name) + 2) ~ shape
        }
        function next_is(name, shape) {
            if (!is(name, shape)) { bad = 1; exit }
            print
            at++
        }
        BEGIN { at = 1; sha = "^[0-9a-f]+$" }
        at == 1 { next_is("avulgjesh-record", "^[1-9][0-9]*$"); next }
        at == 2 { next_is("tick-ns", "^[1-9][0-9]*$"); next }
        at == 3 { next_is("requests", "^[^ ].*$"); next }
        at == 4 { next_is("table-name", "^.+$"); next }
        at == 5 { next_is("table-length", "^(0|[1-9][0-9]*)$"); next }
        at == 6 { next_is("table-sha256", sha); next }
        at == 7 { if ($0 != "table-bytes") { bad = 1; exit } at++; next }
        at == 8 && $0 == "answer" { at++; next }
        at == 8 {
            if ($0 !~ /^[0-9a-f]+$/ || length($0) % 2 || length($0) > 64 || last) { bad = 1; exit }
            if (length($0) < 64) last = 1
            print >hex
            next
        }
        at == 9 && index($0, "answer-sha256 ") == 1 { next_is("answer-sha256", sha); next }
        at == 9 { print >old; next }
        at == 10 { next_is("program-sha256", sha); next }
        at == 11 { next_is("sources-sha256", sha); next }
        at == 12 { next_is("commit", "^(unknown|[0-9a-f]+)$"); next }
        at == 13 { next_is("toolchain", "^.+$"); next }
        at == 14 { next_is("record-sha256", sha); next }
        { bad = 1; exit }
        END { exit bad || at != 15 }' "$1" >"$work/fields"
}

of() { sed -n "s/^$1 //p" "$work/fields"; } # NAME: its value in the record

tell() { printf '%s: %s\n' "$shown" "$*"; }

# One record: 0 the same, 1 table or rows differ, 2 damaged.
verify_one() { # RECORD; $shown is its name
    format=$(sed -n '1s/^avulgjesh-record \([1-9][0-9]*\)$/\1/p' "$1")
    if [ -n "$format" ] && [ "$format" != "$FORMAT" ]; then
        tell "made under other rules: a record of format $format, and format $FORMAT is known here; it is not looked at"
        return 2
    fi
    if ! apart "$1"; then
        tell "damaged: its lines are not those of a record"
        return 2
    fi

    found=0
    bytes_of "$work/hex" >"$work/table" || die 3 "a private file cannot be written"
    sha_of "$work/table"
    table_sha=$sha
    if [ "$sha" != "$(of table-sha256)" ] || [ $(($(wc -c <"$work/table"))) != "$(of table-length)" ]; then
        tell "the table differs: its bytes are not those of its SHA-256 and length"
        found=1
    fi
    sha_of "$work/old"
    if [ "$sha" != "$(of answer-sha256)" ]; then
        tell "the rows differ: they are not those of their SHA-256"
        found=1
    fi
    sed '$d' "$1" >"$work/sealed" || die 3 "a private file cannot be written"
    sha_of "$work/sealed"
    if [ "$sha" != "$(of record-sha256)" ] && [ "$found" -eq 0 ]; then
        tell "damaged: a line other than the table's and the rows' was changed"
        return 2
    fi
    [ "$found" -eq 0 ] || return 1

    other=
    for rule in "tick-ns $TICK" "requests $REQUESTS"; do
        [ "$(of "${rule%% *}")" = "${rule#* }" ] || other="${other:+$other, }${rule%% *} $(of "${rule%% *}"), here ${rule#* }"
    done
    [ -z "$other" ] || tell "made under other rules: $other"
    if [ "$(of program-sha256)" != "$(field program-sha256)" ]; then
        tell "made by another program: $(of program-sha256), commit $(of commit), toolchain $(of toolchain)"
        other=program
    fi

    analyse "$work/table" "$work/answer" || :
    if ! cmp -s "$work/old" "$work/answer"; then
        tell "the rows differ${other:+, as they may under other rules or by another program; the table is as it was recorded}"
        diff "$work/old" "$work/answer" | sed -n 's/^< /  recorded: /p; s/^> /  here:     /p' | head -n 20
        return 1
    fi
    tell "the same: $(of table-name) $table_sha"
}

verify() {
    once "$@"
    worst=0
    for name in "$@"; do
        take "$name" "$work/record" "$MOST_RECORD" || { raise $?; continue; }
        shown=$escaped
        program_ready
        said=0
        verify_one "$work/record" >"$work/out" || said=$?
        put "$work/out"
        raise "$said"
    done
    return "$worst"
}
