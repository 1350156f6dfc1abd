# Tests of the words that the command is given: names of files, links to it, help, usage and the verbs that answer no table. Read by ./run.
# What is wrong in a word is said, and the right status given, before anything is proved or analysed.

# ---- names
test_name_with_a_backslash_keeps_its_hash() {
    cp "$examples/whole-case.tbl" 'a\17b.tbl'
    gives 0 latency 'a\17b.tbl' "$examples/empty.tbl"
    has out 'table a\13417b.tbl 17cd97046797ebf38e56268142dee36ac6f7790fc4ff85eccca3ccbb4fc6d306'
    gives 0 latency 'a\17b.tbl'
    same out "$examples/whole-case.rows"
}

test_names_with_spaces_dashes_and_odd_bytes() {
    mkdir 'a folder'
    line=$(printf 'two\nlines.tbl')
    for name in 'a folder/a table.tbl' -t.tbl -- --help "$line" 'a$b"c`d.tbl' '*.tbl' 'a=b.tbl' 'x;y.tbl' '%s.tbl'; do
        cp -- "$examples/whole-case.tbl" "./$name"
        gives 0 latency -- "$name"
        same out "$examples/whole-case.rows" "the answer of $name"
    done
    gives 0 latency -t.tbl
    gives 0 latency -- "$line" -t.tbl
    has out 'table two\012lines.tbl 17cd97046797ebf38e56268142dee36ac6f7790fc4ff85eccca3ccbb4fc6d306'
    has out 'table -t.tbl 17cd97046797ebf38e56268142dee36ac6f7790fc4ff85eccca3ccbb4fc6d306'
}

test_symbolic_link_from_another_folder() {
    mkdir bin far
    ln -s "$front" far/first
    ln -s ../far/first bin/avulgjesh
    cp "$examples/whole-case.tbl" t.tbl
    (PATH=$PWD/bin:$PATH && cd bin && avulgjesh latency ../t.tbl) >out || no "status $?"
    same out "$examples/whole-case.rows"
    [ "$(ls bin far | tr '\n' ' ')" = 'bin: avulgjesh  far: first ' ] || no "it left files beside the link"
}

test_folder_of_cdpath_is_not_entered() {
    mkdir -p "decoy/${root##*/}" here decoy/here
    CDPATH=$PWD/decoy
    export CDPATH
    (cd -- "$root/.." && sh "${root##*/}/avulgjesh" latency "$examples/whole-case.tbl") >out || no "by its folder: status $?"
    same out "$examples/whole-case.rows"
    ln -s "$front" here/avulgjesh
    sh here/avulgjesh latency "$examples/whole-case.tbl" >out || no "by a link: status $?"
    same out "$examples/whole-case.rows"
    (cd -- "$root" && sh avulgjesh latency examples/whole-case.tbl) >out || no "from its own folder: status $?"
    same out "$examples/whole-case.rows"
}

# ---- help and usage
test_help_is_help() {
    for word in help --help -h; do
        gives 0 "$word"
        grep -q '^usage: ' out || no "no usage for $word"
        quiet
    done
    gives 0 latency --help
    grep -q '^usage: ' out || no "no usage"
}

test_wrong_words_are_usage() {
    gives 2
    silent
    sentence '^usage: '
    gives 2 latencies
    silent
    gives 2 latency
    gives 2 verify
    gives 2 record
    sentence '^usage: '
    gives 2 record "$examples/whole-case.tbl" "$examples/empty.tbl"
    silent
    sentence '^usage: '
    gives 2 pack
    gives 2 pack "$examples/whole-case.txt" "$examples/empty.txt"
    silent
    sentence '^usage: '
}

test_version_names_the_rules_and_the_stamp() {
    gives 0 version
    sed -n 2,3p out >rules
    printf 'tick-ns 80\nrequests M-103\n' >wanted
    same rules wanted
    tail -n 4 out >stamp
    same stamp "$root/target/latency.stamp"
    gives 0 --version
    tail -n 4 out >stamp
    same stamp "$root/target/latency.stamp"
}

# ---- pack
test_pack_packs() {
    gives 0 pack "$examples/whole-case.txt"
    same out "$examples/whole-case.tbl"
    cp "$examples/whole-case.txt" 'a=b.txt'
    gives 0 pack 'a=b.txt'
    same out "$examples/whole-case.tbl"
    "$front" pack - <"$examples/whole-case.txt" | cmp -s - "$examples/whole-case.tbl" || no "not from -"
}

# ---- unpack
test_every_example_goes_to_text_and_back() {
    for text in "$examples"/*.txt; do
        table=${text%.txt}.tbl
        gives 0 pack "$text"
        same out "$table" "the table of ${text##*/}"
        gives 0 unpack "$table"
        quiet
        cp out again.txt
        gives 0 pack again.txt
        same out "$table" "the table of the text of ${table##*/}"
        gives 0 unpack "$table"
        same out again.txt "the text of ${table##*/}"
    done
    sed 's/$/\r/' "$examples/whole-case.txt" >crlf.txt
    gives 0 pack crlf.txt
    same out "$examples/whole-case.tbl" "the table of lines with CR LF"
}

test_unpack_has_a_line_for_each_record() {
    gives 0 unpack "$examples/whole-case.tbl"
    cat >wanted <<'END'
version 1
delays 500 1000 500 500
system 100
vl 0 1 1 1518
vl 0 2 1 516
stream 0 0 queuing 2000 1000 250000 0
stream 1 0 sampling 469 10 500000 1000
port 100 875 1250
hop 0 0 none
hop 1 0 none
END
    same out wanted
    "$front" unpack - <"$examples/whole-case.tbl" | cmp -s - wanted || no "not from -"
}

test_unpack_of_a_refused_table_is_its_refusal() {
    head -c 13 "$examples/whole-case.tbl" >short.tbl
    gives 1 unpack short.tbl
    printf 'refused 1 0 0\n' >wanted
    same out wanted
    gives 2 unpack nosuch.tbl
    silent
    gives 2 unpack
    gives 2 unpack "$examples/whole-case.tbl" "$examples/empty.tbl"
    sentence '^usage: '
    status=0
    "$front" unpack "$examples/whole-case.tbl" >/dev/full 2>err || status=$?
    [ "$status" -eq 2 ] || no "status $status, not 2, on a full disk"
}

# ---- what pack says (examples/README.md): each sentence whole, with the text that earns it
says() { # SENTENCE, of bad.txt
    gives 1 pack bad.txt
    silent
    printf 'pack: %s\n' "$1" >wanted
    same err wanted "the sentence '$1'"
}

behind_delays() { # LINE SENTENCE: the line stands behind one of delays
    printf 'delays 0 0 0 0\n%b\n' "$1" >bad.txt
    says "line 2: $2"
}

test_pack_says_what_is_wrong_with_a_line() {
    words='a line begins with delays, system, vl, stream, port, hop or version, not'
    sed 's/^vl /vlan /' "$examples/whole-case.txt" >bad.txt
    says "line 10: $words \"vlan\""
    printf '\n# a comment\r\ndelays 1 2 3 # 4\r\nvlan\n' >bad.txt
    says 'line 3: receive delay greatest is missing'
    behind_delays 'vl 0 1' 'sub-links is missing'
    behind_delays 'version' 'version is missing'
    behind_delays 'hop 0 0' 'parent is missing'
    behind_delays 'vl 0 1 -1 64' 'sub-links is not a number: "-1"'
    behind_delays 'version one' 'version is not a number: "one"'
    behind_delays 'stream 0 0 queued 1 1 12500 0' 'kind is queuing or sampling, not "queued"'
    parent='parent is none, or after and a row of the hops, not'
    behind_delays 'hop 0 0 before 2' "$parent \"before\""
    behind_delays 'hop 0 0 after' "$parent \"after\""
    behind_delays 'hop 0 0 after none' "$parent \"after\""
    behind_delays 'vl 0 1 1 64 5 6' 'more words than a line of vl has: "5"'
    behind_delays 'hop 0 0 after 1 2' 'more words than a line of hop has: "2"'
    behind_delays 'version 1 1' 'more words than a line of version has: "1"'
}

test_pack_says_how_many_lines_there_are_at_most() {
    behind_delays 'delays 0 0 0 0' 'a second line of delays'
    printf 'version 1\ndelays 0 0 0 0\nversion 1\n' >bad.txt
    says 'line 3: a second line of version'
    for most in 'system 64 system 100' 'vl 256 vl 0 1 1 64' 'stream 512 stream 0 0 queuing 1 1 12500 0' 'port 128 port 100 0 0' \
        'hop 1024 hop 0 0 none'; do
        keyword=${most%% *}
        most=${most#* }
        count=${most%% *}
        awk -v line="${most#* }" -v n="$count" 'BEGIN { print "delays 0 0 0 0"; for (i = 0; i < n; i++) print line }' >bad.txt
        gives 0 pack bad.txt
        printf '%s\n' "${most#* }" >>bad.txt
        says "line $((count + 2)): more than $count $keyword lines"
    done
    printf 'vl 0 1 1\n' >>bad.txt
    says 'line 1026: more than 1024 hop lines'
    awk 'BEGIN { print "delays 0 0 0 0"; for (i = 0; i < 256; i++) print "vl 0 1 1 64"; print "vl 0 1 1" }' >bad.txt
    says 'line 258: Lmax is missing'
    printf 'system 100\n' >bad.txt
    says 'there is no line of delays'
    : >bad.txt
    says 'there is no line of delays'
    awk 'BEGIN { print "delays 0 0 0 0"; for (i = 15; i < 262144; i++) printf "#" }' >bad.txt
    gives 0 pack bad.txt
    same out "$examples/empty.tbl"
    printf '#' >>bad.txt
    says 'the text is longer than 262144 bytes'
}

test_pack_says_which_number_no_table_can_hold() {
    sed 's/250000/12499/' "$examples/whole-case.txt" >bad.txt
    says 'line 14: period is 12500 to 125000000, not "12499"'
    printf 'version 2\ndelays 0 0 0 0\n' >bad.txt
    says 'line 1: version is 1, not "2"'
    behind_delays 'version 0' 'version is 1, not "0"'
    printf '# first\ndelays 0 0 0 1876\n' >bad.txt
    says 'line 2: receive delay greatest is 0 to 1875, not "1876"'
    behind_delays 'system 99' 'speed is 100 or 10, not "99"'
    behind_delays 'vl 0 3 1 64' 'gap is 1, 2, 4, 8, 16, 32, 64 or 128, not "3"'
    behind_delays 'vl 0 1 5 64' 'sub-links is 1 to 4, not "5"'
    behind_delays 'vl 0 1 1 63' 'Lmax is 64 to 1518, not "63"'
    behind_delays 'stream 4096 0 queuing 1 1 12500 0' 'VL is at most 4095, not "4096"'
    behind_delays 'stream 0 4 queuing 1 1 12500 0' 'sub-link is at most 3, not "4"'
    behind_delays 'port 10 1251 0' 'switch delay least is 0 to 1250, not "1251"'
    parent='parent is none, or after and a row below 4095, not'
    behind_delays 'hop 0 0 after 4095' "$parent \"4095\""
    printf 'hop 0 0 none\nhop 0 1 after \t 04095#0\ndelays 0 0 0 0' >bad.txt
    says "line 2: $parent \"04095\""
    behind_delays 'hop 0 0 after 18446744073709551616' "$parent \"18446744073709551616\""
    behind_delays 'system 18446744073709551716' 'speed is 100 or 10, not "18446744073709551716"'
    printf 'delays 0 0 0 0\nhop 0 0 after 4094\n' >good.txt
    gives 0 pack good.txt
}

test_pack_says_which_pair_is_not_in_order() {
    behind_delays 'stream 0 0 queuing 1 2 12500 0' 'least M is above M'
    behind_delays 'port 100 1 0' 'switch delay least is above switch delay greatest'
    printf 'delays 1 0 1 0\nsystem 99\n' >bad.txt
    says 'line 1: send delay least is above send delay greatest'
    printf 'system 99\ndelays 0 0 1 0\n' >bad.txt
    says 'line 2: receive delay least is above receive delay greatest'
}

test_pack_shows_a_word_as_the_text_has_it() {
    words='line 1: a line begins with delays, system, vl, stream, port, hop or version, not'
    printf 'v\001l\000\033\037\177\200\377"\n' >bad.txt
    says "$(printf '%s "v?l????\200\377""' "$words")"
    printf '1234567890123456789012345678901234567890\n' >bad.txt
    says "$words \"1234567890123456789012345678901234567890\""
    printf '12345678901234567890123456789012345678901\n' >bad.txt
    says "$words \"1234567890123456789012345678901234567890\""
    behind_delays 'system 12345678901234567890123456789012345678901' \
        'speed is 100 or 10, not "1234567890123456789012345678901234567890"'
    cp "$examples/whole-case.tbl" bad.txt
    says "$words \"???\""
}

test_pack_of_what_is_no_file_or_goes_nowhere() {
    gives 2 pack nosuch.txt
    silent
    status=0
    "$front" pack "$examples/whole-case.txt" >/dev/full 2>err || status=$?
    [ "$status" -eq 2 ] || no "status $status, not 2, on a full disk"
}
