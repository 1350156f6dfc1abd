# Tests of building and running in other surroundings: read by ./run, over the scratch repository of stamps.sh.
# Without git, without rt, with a proof or a program that fails, and with two runs at once.

test_without_git() {
    scratch
    path_without git
    gives 0 latency t.tbl
    same out rows
    stamped_with 'commit unknown'
}

test_without_rt_the_stamped_program_runs() {
    scratch
    gives 0 latency t.tbl
    path_without rt
    gives 0 latency t.tbl
    same out rows
    sentence 'toolchain not looked at'
    gives 0 record t.tbl
    echo 'fn main() { }' >house/crates/latency/src/main.rt
    gives 3 latency t.tbl
    silent
    sentence 'the sources are others'
    git -C house checkout -q -- .
    gives 0 latency t.tbl
    echo >>house/crates/latency/out/latency
    gives 3 latency t.tbl
    silent
    sentence 'the program is not the one that was stamped'
    rm house/crates/latency/out/latency
    gives 3 latency t.tbl
    silent
    sentence 'rt is not on the path'
    builds 1
}

test_proof_that_fails_is_ours() {
    scratch
    echo 'echo "rt: latency NOT PROVED" >&2; exit 1' >meanwhile
    gives 3 latency t.tbl
    silent
    sentence 'rt: latency NOT PROVED'
    sentence 'the proof or the build failed'
    [ -z "$(ls house/target | grep building)" ] || no "the lock is left"
    builds 1
    rm meanwhile
    echo 'echo "rt: base NOT PROVED"; exit 1' >below
    gives 3 latency t.tbl
    silent
    sentence 'rt: base NOT PROVED'
    sentence 'the proof or the build failed'
    builds 1
}

# The program is run on the crate's own stdin as it is built, and has to write the crate's own stdout.
test_program_that_writes_another_answer_is_ours() {
    scratch
    printf 'a table\n' >house/crates/latency/stdin
    cp rows house/crates/latency/stdout
    echo 'cmp -s crates/latency/stdin /dev/stdin && cat "$here/answer"' >meanwhile
    echo another >answer
    gives 3 latency t.tbl
    silent
    sentence 'latency writes something else than its file stdout has'
    [ ! -e house/target/latency.stamp ] || no "there is a stamp"
    cp rows answer
    gives 0 latency t.tbl
    same out rows
}

test_program_that_fails_is_ours() {
    for wrong in 'exit 1' 'cat '"$PWD"'/rows; exit 1' 'kill -9 $$' 'echo no answer >&2' 'printf "stream hop queue worst best jitter\n0 0 1 2 3\n"' \
        'printf "stream hop queue worst best jitter\n0 0 1 2 3 4"' ':' 'printf "refused 1 0\n"' 'printf "refused 1 0 0\nrefused 1 0 0\n"' \
        'printf "stream hop queue worst best jitter\n0 0 1 2 3 4\n"; echo latency: the answer could not be written whole >&2'; do
        rm -rf house pretend
        scratch
        printf '#!/bin/sh\ncat >/dev/null\n%s\n' "$wrong" >made
        gives 3 latency t.tbl
        silent
        [ -s err ] || no "nothing is said of $wrong"
        gives 3 record t.tbl
        silent
    done
}

test_unreadable_table_is_said_before_the_proof() {
    scratch
    gives 2 latency nosuch.tbl
    builds 0
}

test_two_runs_at_once_build_once() {
    scratch
    echo 'sleep 2' >meanwhile
    "$front" latency t.tbl >first 2>first.err &
    gives 0 latency t.tbl
    wait "$!" || no "the other run: status $?"
    same out rows
    same first rows "the other run's answer"
    builds 1
}

test_lock_of_a_run_that_is_gone_is_taken() {
    scratch
    mkdir house/target
    echo 99999999 >house/target/building
    gives 0 latency t.tbl
    same out rows
}
