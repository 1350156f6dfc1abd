# Tests of records and their verification: read by ./run.
# `resealed` makes the hashes of a changed record good again, as somebody would who rewrites it; what is left is found by the answer alone.

a_record() { "$front" record "$examples/whole-case.tbl" >good 2>err || no "record: status $?: $(tail -n 1 err)"; }

sum() { sha256sum | cut -d ' ' -f 1; }
resealed() { # FILE
    awk '/^answer-sha256 / { inside = 0 } inside { print } $0 == "answer" { inside = 1 }' "$1" >answer
    sed -e "s/^answer-sha256 .*/answer-sha256 $(sum <answer)/" -e '$d' "$1" >unsealed
    { cat unsealed && echo "record-sha256 $(sum <unsealed)"; } >"$1"
}

# Changes the record by a sed command and looks what is said of it.
changed() { # STATUS PATTERN COMMAND
    sed -e "$3" good >bad
    ! cmp -s good bad || no "nothing is changed by $3"
    gives "$1" verify bad
    grep -q -e "^bad: $2" out || no "of $3 it says '$(head -n 1 out)'"
}

test_record_holds_table_rows_and_stamp() {
    a_record
    cat >wanted <<END
avulgjesh-record 1
tick-ns 80
requests M-103
table-name whole-case.tbl
table-length 59
table-sha256 17cd97046797ebf38e56268142dee36ac6f7790fc4ff85eccca3ccbb4fc6d306
table-bytes
0101002002010021f43e81f41f40000005ee00220400003e807d000f42400000
000000120ea801401e84800001f4001b5a71000000000000100000
answer
$(cat "$examples/whole-case.rows")
answer-sha256 $(sum <"$examples/whole-case.rows")
$(cat "$root/target/latency.stamp")
END
    echo "record-sha256 $(sum <wanted)" >>wanted
    same good wanted
    quiet
}

test_record_is_the_same_bytes_again() {
    a_record
    mkdir elsewhere
    cp "$examples/whole-case.tbl" elsewhere/
    touch -t 200001010000 elsewhere/whole-case.tbl
    gives 0 record elsewhere/whole-case.tbl
    same out good
}

test_record_of_every_example_verifies() {
    for table in "$examples"/*.tbl; do
        case $(cat "${table%.tbl}.rows") in refused*) wanted=1 ;; *) wanted=0 ;; esac
        gives "$wanted" record "$table"
        mv out "${table##*/}.record"
    done
    gives 0 verify ./*.record
    [ "$(grep -c ': the same: ' out)" -eq "$(ls ./*.record | wc -l)" ] || no "not every record is the same"
}

test_record_of_a_pipe_has_no_name_and_the_right_hash() {
    a_record
    sed 's/^table-name .*/table-name -/' good >wanted
    resealed wanted
    cat "$examples/whole-case.tbl" | "$front" record - >out || no "status $?"
    same out wanted "the record from -"
    mkfifo pipe
    timeout 60 sh -c 'cat "$0" >pipe' "$examples/whole-case.tbl" &
    gives 0 record pipe
    same out wanted "the record from a pipe with a name"
}

test_record_keeps_odd_names() {
    for name in 'a b\c.tbl' -t.tbl ./- "$(printf 'two\nlines')" 'é.tbl'; do
        cp -- "$examples/whole-case.tbl" "./$name"
        gives 0 record -- "$name"
        mv out "record of one"
        gives 0 verify "record of one"
    done
    gives 0 record -- 'a b\c.tbl'
    has out 'table-name a b\134c.tbl'
    has out 'table-sha256 17cd97046797ebf38e56268142dee36ac6f7790fc4ff85eccca3ccbb4fc6d306'
    gives 0 record ./-
    has out 'table-name \055'
    gives 0 record 'é.tbl'
    has out 'table-name \303\251.tbl'
}

test_record_of_a_long_and_of_no_table() {
    : >none.tbl
    head -c 1000000 /dev/urandom >long.tbl
    for name in none long; do
        gives 1 record "$name.tbl"
        mv out "$name.record"
        gives 0 verify "$name.record"
    done
}

test_record_that_cannot_be_written_is_said() {
    status=0
    "$front" record "$examples/whole-case.tbl" >/dev/full 2>err || status=$?
    [ "$status" -eq 2 ] || no "status $status, not 2"
    gives 2 record nosuch.tbl
    silent
}

test_record_from_a_pipe_is_verified() {
    a_record
    "$front" verify - <good >out || no "status $?"
    has out '-: the same: whole-case.tbl 17cd97046797ebf38e56268142dee36ac6f7790fc4ff85eccca3ccbb4fc6d306'
}

# ---- a byte of each kind
test_changed_byte_of_the_table_differs() {
    a_record
    changed 1 'the table differs' '8s/^0101/0102/'
    changed 1 'the table differs' '9s/0$/1/'
    changed 1 'the table differs' 's/^table-length 59/table-length 58/'
    changed 1 'the table differs' 's/^table-sha256 1/table-sha256 2/'
}

test_changed_byte_of_the_rows_differs() {
    a_record
    changed 1 'the rows differ' 's/ 19398 / 19397 /'
    changed 1 'the rows differ' 's/ 19398 / 1939 /'
    changed 1 'the rows differ' '/^1 1 0 /d'
    changed 1 'the rows differ' 's/^stream hop/stream hip/'
    changed 1 'the rows differ' 's/^answer-sha256 0/answer-sha256 1/'
}

test_changed_byte_elsewhere_is_damage() {
    a_record
    changed 2 damaged 's/^table-name w/table-name v/'
    changed 2 damaged 's/^tick-ns 80/tick-ns 81/'
    changed 2 damaged 's/^requests M-103/requests M-104/'
    changed 2 damaged 's/^program-sha256 ./program-sha256 /'
    changed 2 damaged 's/^sources-sha256 ./sources-sha256 /'
    changed 2 damaged 's/^commit ./commit /'
    changed 2 damaged 's/^toolchain ./toolchain /'
    changed 2 damaged 's/^record-sha256 ./record-sha256 /'
    changed 2 damaged 's/^answer$/Answer/'
    changed 2 damaged 's/^table-bytes/table-byte/'
    changed 2 damaged '1s/^a/b/'
    changed 2 damaged '8s/^0101/010x/'
    changed 2 damaged '2s/$/ /'
    changed 2 damaged '2s/80/80\r/'
    changed 2 damaged '$d'
    changed 2 damaged '5,$d'
    changed 2 damaged '$s/$/\n/'
    changed 2 damaged '2d'
    changed 2 damaged '2{p}'
    changed 2 damaged '1s/^/\n/'
}

test_cut_last_byte_is_damage() {
    a_record
    head -c "$(($(wc -c <good) - 1))" good >bad
    gives 2 verify bad
    grep -q '^bad: damaged' out || no "it says '$(head -n 1 out)'"
    : >bad
    gives 2 verify bad
    cp "$examples/whole-case.tbl" bad
    gives 2 verify bad
}

# ---- a record that is whole and says something else
test_other_row_with_good_hashes_differs() {
    a_record
    sed 's/ 19398 / 19397 /' good >bad
    resealed bad
    gives 1 verify bad
    has out 'bad: the rows differ'
    has out '  recorded: 0 0 12500 19397 2043 17355'
    has out '  here:     0 0 12500 19398 2043 17355'
}

test_other_table_with_good_hashes_differs() {
    a_record
    "$front" record "$examples/sub-links.tbl" >other 2>err || no "record: status $?"
    { sed -n '1,/^answer$/p' other && sed '1,/^answer$/d' good; } >bad
    resealed bad
    gives 1 verify bad
    has out 'bad: the rows differ'
}

test_other_program_is_said_first_and_is_no_fault() {
    a_record
    sed 's/^program-sha256 .*/program-sha256 00/' good >other
    resealed other
    gives 0 verify other
    sed -n 1p out | grep -q '^other: made by another program: 00, commit ' || no "it says '$(head -n 1 out)'"
    sed -n 2p out | grep -q '^other: the same: ' || no "then '$(sed -n 2p out)'"
    sed 's/ 19398 / 19397 /' other >bad
    resealed bad
    gives 1 verify bad
    sed -n 1p out | grep -q '^bad: made by another program' || no "it says '$(head -n 1 out)'"
    sed -n 2p out | grep -q '^bad: the rows differ, .*the table is as it was recorded$' || no "then '$(sed -n 2p out)'"
}

test_other_rules_are_said_first_and_are_no_fault() {
    a_record
    sed -e 's/^tick-ns .*/tick-ns 8/' -e 's/^requests .*/requests M-102/' -e 's/ 19398 / 193980 /' good >bad
    resealed bad
    gives 1 verify bad
    sed -n 1p out | grep -q '^bad: made under other rules: tick-ns 8, here 80, requests M-102, here M-103$' ||
        no "it says '$(head -n 1 out)'"
    sed -n 2p out | grep -q '^bad: the rows differ, .*the table is as it was recorded$' || no "then '$(sed -n 2p out)'"
    sed '1s/1/2/' good >bad
    resealed bad
    gives 2 verify bad
    grep -q '^bad: made under other rules: a record of format 2' out || no "it says '$(head -n 1 out)'"
}

# A record from before a request that moved rows must not pass for one of today's rules.
test_requests_of_a_record_are_those_that_corrected_the_paper() {
    a_record
    corrected=$(sed -n 's/^## \(M-[0-9]*\): .*/\1/p' "$root/docs/CORRECTIONS.md" | tr '\n' ' ')
    [ -n "$corrected" ] || no 'docs/CORRECTIONS.md has no request'
    grep -qx "requests ${corrected% }" good || no "it says '$(sed -n 3p good)'"
    sed 's/^requests .*/requests none/' good >bad
    resealed bad
    gives 0 verify bad
    sed -n 1p out | grep -qx 'bad: made under other rules: requests none, here M-103' || no "it says '$(head -n 1 out)'"
}

test_of_several_records_the_highest_status() {
    a_record
    sed 's/ 19398 / 19397 /' good >differs
    head -n 4 good >damaged
    gives 1 verify good differs
    gives 2 verify damaged differs good
    gives 2 verify good nosuch
    gives 0 verify good good
}
