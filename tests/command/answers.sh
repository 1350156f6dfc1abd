# Tests of what the command reads, answers and writes, over the stamped program: read by ./run.
# Rows of the table of defects that each repeats stand in its name.

test_one_table_gives_its_lines_alone() {
    gives 0 latency "$examples/whole-case.tbl"
    same out "$examples/whole-case.rows"
    quiet
}

test_every_example_gives_its_rows_and_status() {
    for table in "$examples"/*.tbl; do
        case $(cat "${table%.tbl}.rows") in refused*) wanted=1 ;; *) wanted=0 ;; esac
        gives "$wanted" latency "$table"
        same out "${table%.tbl}.rows" "the answer of ${table##*/}"
    done
}

test_program_gives_every_example_its_rows() {
    "$examples/check" "$root/tools/built" latency >said || no "$(head -n 1 said)"
}

test_several_tables_each_follow_their_line() {
    gives 1 latency "$examples/whole-case.tbl" "$examples/refused-9.tbl"
    for name in whole-case refused-9; do
        printf 'table %s %s\n' "$examples/$name.tbl" "$(sha256sum <"$examples/$name.tbl" | cut -d ' ' -f 1)"
        cat "$examples/$name.rows"
    done >wanted
    same out wanted
}

test_of_several_tables_the_highest_status() {
    gives 2 latency "$examples/refused-9.tbl" nosuch.tbl "$examples/whole-case.tbl"
    [ "$(grep -c '^table ' out)" -eq 2 ] || no "the tables that can be read are not answered"
    gives 1 latency "$examples/refused-9.tbl" "$examples/whole-case.tbl"
    gives 0 latency "$examples/whole-case.tbl" "$examples/empty.tbl"
}

# The most that every count may be: 12,110 bytes, whose first VL has no Lmax; one byte more is one too many. A program that reads less sees neither.
test_longest_table_is_read_whole() {
    { printf '\001\100\020\002\000\200\100\000\000' && head -c 12101 /dev/zero; } >longest.tbl
    [ "$(wc -c <longest.tbl)" -eq 12110 ] || no "the table is not the longest"
    gives 1 latency longest.tbl
    has out 'refused 4 2 0'
    printf '\000' >>longest.tbl
    gives 1 latency longest.tbl
    has out 'refused 3 0 0'
}

# ---- output that cannot be written
test_full_disk_is_said() {
    status=0
    "$front" latency "$examples/whole-case.tbl" >/dev/full 2>err || status=$?
    [ "$status" -eq 2 ] || no "status $status, not 2"
    sentence 'standard output cannot be written'
}

test_closed_output_is_said() {
    status=0
    "$front" latency "$examples/whole-case.tbl" >&- 2>err || status=$?
    [ "$status" -eq 2 ] || no "status $status, not 2"
    sentence 'standard output is closed'
}

test_file_limit_gives_no_cut_row() {
    full
    status=0
    (trap '' XFSZ && ulimit -f 9 && exec "$front" latency full.tbl) >out 2>err || status=$?
    [ "$status" -eq 3 ] || no "status $status, not 3"
    silent
    sentence '^avulgjesh: '
}

test_program_says_a_write_that_fails() {
    full
    "$root/tools/built" latency <full.tbl >/dev/full 2>err
    printf 'latency: the answer could not be written whole\n' >wanted
    same err wanted
    "$root/tools/built" latency <"$examples/refused-9.tbl" >/dev/full 2>err
    same err wanted
}

# A pipe that does not wait takes some rows and then no more, or only shorter ones: what it took is a beginning of the answer, with no row
# left out. Long rows stand before short ones, and the pipe is filled to a little more each time, so that some time a short one would fit.
test_program_stops_at_the_first_write_that_fails() {
    awk 'BEGIN {
        print "delays 0 0 0 0\nsystem 100\nvl 0 128 1 64"
        for (v = 1; v < 5; v++) print "vl 0 1 1 64"
        print "stream 0 0 queuing 17 17 3200000 0\nstream 0 0 queuing 17 17 3200000 0"
        for (v = 1; v < 5; v++) print "stream " v " 0 queuing 17 17 12500 0"
        for (p = 0; p < 128; p++) print "port 100 0 0"
        for (v = 0; v < 5; v++) for (p = 0; p < 128; p++) print "hop " v " " p " none"
    }' | "$root/tools/built" pack >uneven.tbl
    "$root/tools/built" latency <uneven.tbl >all
    [ "$(wc -l <all)" -eq 769 ] || no "the table has not 768 rows: $(head -n 1 all)"
    printf 'latency: the answer could not be written whole\n' >wanted
    mkfifo pipe
    exec 4<>pipe
    dd if=/dev/zero bs=4096 count=100000 oflag=nonblock >&4 2>/dev/null
    holds=$(dd iflag=nonblock bs=100000 <&4 2>/dev/null | wc -c)
    filled=$((holds - 3500))
    while [ "$filled" -lt $((holds - 3460)) ]; do
        dd if=/dev/zero bs="$filled" count=1 >&4 2>/dev/null
        "$root/tools/built" latency <uneven.tbl >&4 2>err
        same err wanted
        dd iflag=nonblock bs=100000 <&4 2>/dev/null | tail -c "+$((filled + 1))" >some
        [ -s some ] || no "the pipe took nothing"
        [ "$(wc -c <some)" -lt "$(wc -c <all)" ] || no "the pipe took all"
        head -c "$(wc -c <some)" all >beginning
        same some beginning "what the pipe took"
        filled=$((filled + 3))
    done
}

# ---- input: taken once, and a failed read is no table
test_pipe_gives_what_the_file_gives() {
    cat "$examples/whole-case.tbl" | "$front" latency - >out || no "from -: status $?"
    same out "$examples/whole-case.rows" "the answer from -"
    cat "$examples/whole-case.tbl" | "$front" latency /dev/stdin >out || no "from /dev/stdin: status $?"
    same out "$examples/whole-case.rows" "the answer from /dev/stdin"
    mkfifo pipe
    timeout 60 sh -c 'cat "$0" >pipe' "$examples/whole-case.tbl" &
    gives 0 latency pipe
    same out "$examples/whole-case.rows" "the answer from a pipe with a name"
}

test_slow_pipe_is_read_to_its_end() {
    { head -c 20 "$examples/whole-case.tbl"; sleep 1; tail -c +21 "$examples/whole-case.tbl"; } | "$front" latency - >out || no "status $?"
    same out "$examples/whole-case.rows"
}

test_folder_is_no_table() {
    mkdir folder
    gives 2 latency folder
    silent
    sentence 'folder: that is a folder'
}

test_closed_input_is_no_table() {
    for name in - /dev/stdin; do
        status=0
        "$front" latency "$name" <&- >out 2>err || status=$?
        [ "$status" -eq 2 ] || no "status $status, not 2, of $name"
        silent
        [ -s err ] || no "nothing is said of $name"
    done
}

test_read_error_is_no_table() {
    mkfifo pipe
    exec 4<>pipe
    dd iflag=nonblock count=0 <&4 2>/dev/null
    status=0
    "$front" latency - <&4 >out 2>err || status=$?
    [ "$status" -eq 2 ] || no "status $status, not 2"
    silent
    sentence '-: cannot be read: Resource temporarily unavailable'
}

test_program_says_a_read_that_fails() {
    mkdir folder
    printf 'latency: the table could not be read\n' >wanted
    "$root/tools/built" latency <folder >out 2>err
    silent
    same err wanted
    "$root/tools/built" latency <&- >out 2>err
    silent
    same err wanted
}

# A pipe that does not wait holds a good table, with more to come: what has come is not the whole.
test_good_beginning_of_a_failed_read_is_no_table() {
    mkfifo pipe
    exec 4<>pipe
    cat "$examples/whole-case.tbl" >&4
    dd iflag=nonblock count=0 <&4 2>/dev/null
    "$root/tools/built" latency <&4 >out 2>err
    silent
    printf 'latency: the table could not be read\n' >wanted
    same err wanted
    cat "$examples/whole-case.tbl" >&4
    status=0
    "$front" latency - <&4 >out 2>err || status=$?
    [ "$status" -eq 2 ] || no "status $status, not 2"
    silent
}

test_missing_file_is_said() {
    gives 2 latency nosuch.tbl
    silent
    sentence 'nosuch.tbl: there is no such file'
}

test_more_than_a_megabyte_is_said() {
    head -c 1000001 /dev/zero >large
    gives 2 latency large
    silent
    sentence 'more than 1000000 bytes'
    head -c 1000000 /dev/zero >large
    gives 1 latency large
    head -c 12110 /dev/zero >large
    gives 1 latency large
}

test_standard_input_is_named_once() {
    status=0
    "$front" latency - - <"$examples/whole-case.tbl" >out 2>err || status=$?
    [ "$status" -eq 2 ] || no "status $status, not 2"
    silent
}

test_no_private_folder_is_ours() {
    TMPDIR=$PWD/nosuch gives 3 latency "$examples/whole-case.tbl"
    silent
}
