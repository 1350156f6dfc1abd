# Tests of the stamp: read by ./run. A scratch repository has the command, two small sources and a rt that only pretends to prove: of a library
# it leaves a copy of its sources in out, as rt does. Of the program it notes each build in builds, does what the file `meanwhile` says, puts
# the file `made` in the program's place, and runs nothing. Without a toolchain's loader tools/built runs a program as it is, so that it can be a
# script.

scratch() { # makes ./house with its first commit, and puts the pretending rt on the path
    mkdir -p house/crates/latency/src house/crates/base/specs house/tools house/examples pretend
    cp "$root/avulgjesh" house/
    cp "$root"/tools/* house/tools/
    printf 'target\nout\n' >house/.gitignore
    printf 'base:\nlatency: base io libc\n' >house/crates.txt
    printf 'fn main() {}\n' >house/crates/latency/src/main.rt
    printf 'pub mod Lib\n' >house/crates/base/specs/Lib.antt
    printf 'kit 1\n' >kit
    printf '#!/bin/sh\ncat >/dev/null\nprintf "stream hop queue worst best jitter\\n0 0 1 2 3 4\\n"\n' >made
    printf 'stream hop queue worst best jitter\n0 0 1 2 3 4\n' >rows
    printf 'a table\n' >t.tbl
    cat >pretend/rt <<END
#!/bin/sh
here='$PWD'
case \$1 in
version) cat "\$here/kit" ;;
doc) echo /nosuch/START-HERE.md ;;
lib)
    [ ! -f "\$here/below" ] || . "\$here/below"
    cat ./*/*.rt ./*/*.antt >"\$here/read" 2>/dev/null
    ! cmp -s "\$here/read" out/rlib/stamp || exit 0
    mkdir -p out/rlib/specs out/rlib/src
    cp "\$here/read" out/rlib/specs/Lib.antt
    cp "\$here/read" out/rlib/src/lib.rt
    cp "\$here/read" out/rlib/stamp
    echo 'logic=proved functions=1'
    ;;
run)
    echo build >>"\$here/builds"
    cd ../..
    [ ! -f "\$here/meanwhile" ] || . "\$here/meanwhile"
    cd crates/latency
    mkdir -p out
    [ ! -f out/latency.stamp ] || { echo 'rt: nothing has changed since the last proved build' >&2; exit 0; }
    cp "\$here/made" out/latency && chmod +x out/latency && echo fresh >out/latency.stamp
    echo 'logic=proved functions=1' >&2
    ;;
esac
END
    chmod +x pretend/rt
    PATH=$PWD/pretend:$PATH
    GIT_CONFIG_GLOBAL=/dev/null GIT_CONFIG_NOSYSTEM=1
    export PATH GIT_CONFIG_GLOBAL GIT_CONFIG_NOSYSTEM
    : >builds
    front=$PWD/house/avulgjesh
    git -C house init -q
    commit first
}

commit() {
    git -C house add -A
    git -C house -c user.name=n -c user.email=e -c commit.gpgsign=false commit -q -m "$1"
}

builds() { # N
    [ "$(wc -l <builds)" -eq "$1" ] || no "$(($(wc -l <builds))) builds, not $1${2:+: $2}"
}
stamped_with() { has house/target/latency.stamp "$1"; }
stamped_commit() { stamped_with "commit $(git -C house rev-parse HEAD)"; }
# A path on which every command is but those that are named.
path_without() {
    mkdir few
    for folder in $(echo "$PATH" | tr : ' '); do
        for command in "$folder"/*; do
            [ ! -x "$command" ] || [ -e "few/${command##*/}" ] || ln -s "$command" few/
        done
    done
    for name in "$@"; do rm -f "few/$name"; done
    PATH=$PWD/few
}

test_first_use_builds_stamps_and_says_how_far() {
    scratch
    gives 0 latency t.tbl
    same out rows
    sentence '^avulgjesh: 1 of 2: base proved ([0-9]* s)'
    sentence '^avulgjesh: 2 of 2: latency proved ([0-9]* s)'
    stamped_with "program-sha256 $(sha256sum <house/crates/latency/out/latency | cut -d ' ' -f 1)"
    stamped_with 'toolchain kit 1'
    stamped_commit
    gives 0 latency t.tbl
    quiet
    builds 1
    echo 'fn main() { }' >house/crates/latency/src/main.rt
    gives 0 latency t.tbl
    sentence '^avulgjesh: 1 of 2: base proved (unchanged since it was last proved)'
    builds 2
}

# rt keeps copies of sources in out: they are none.
test_what_rt_makes_is_no_source() {
    scratch
    gives 0 latency t.tbl
    [ -f house/crates/base/out/rlib/specs/Lib.antt ] || no "nothing was made"
    echo other >house/crates/base/out/rlib/specs/Lib.antt
    rm -r house/crates/base/out/rlib/src
    gives 0 latency t.tbl
    quiet
    builds 1
    stamped_commit
    mkdir -p house/crates/base/specs/out
    echo >house/crates/base/specs/out/Own.antt
    gives 0 latency t.tbl
    builds 2 'a source in a folder that is called out too'
}

test_source_saved_during_the_proof_is_not_stamped() {
    scratch
    echo 'echo "fn main() { }" >crates/latency/src/main.rt' >meanwhile
    gives 3 latency t.tbl
    silent
    sentence 'the sources changed while they were proved'
    [ ! -e house/target/latency.stamp ] || no "there is a stamp"
    rm meanwhile
    commit second
    gives 0 latency t.tbl
    builds 2
    stamped_commit
}

test_source_that_is_deleted_added_or_changed_is_noticed() {
    scratch
    gives 0 latency t.tbl
    mv house/crates/base/specs/Lib.antt house/crates/base/specs/Other.antt
    gives 0 latency t.tbl
    builds 2 renamed
    rm house/crates/base/specs/Other.antt
    gives 0 latency t.tbl
    builds 3 deleted
    stamped_with 'commit unknown'
    git -C house checkout -q -- .
    gives 0 latency t.tbl
    builds 4 'as it was'
    stamped_commit
    mkdir house/crates/base/src
    echo >house/crates/base/src/lib.rt
    gives 0 latency t.tbl
    builds 5 added
    stamped_with 'commit unknown'
    echo '# a note' >>house/crates.txt
    gives 0 latency t.tbl
    builds 6 crates.txt
}

test_source_with_an_old_time_is_noticed() {
    scratch
    gives 0 latency t.tbl
    echo 'fn main() { }' >house/crates/latency/src/main.rt
    touch -t 200001010000 house/crates/latency/src/main.rt
    commit second
    gives 0 latency t.tbl
    builds 2
    stamped_commit
}

test_other_toolchain_is_noticed() {
    scratch
    gives 0 latency t.tbl
    echo 'kit 2' >kit
    gives 0 latency t.tbl
    builds 2
    stamped_with 'toolchain kit 2'
}

test_toolchain_that_changes_during_the_proof_is_not_stamped() {
    scratch
    echo 'echo "kit 2" >"$here/kit"' >meanwhile
    gives 3 latency t.tbl
    silent
    sentence 'the toolchain changed during the proof'
    [ ! -e house/target/latency.stamp ] || no "there is a stamp"
}

test_program_put_in_place_by_hand_is_noticed() {
    scratch
    gives 0 latency t.tbl
    printf '#!/bin/sh\nprintf "stream hop queue worst best jitter\\n0 0 9 9 9 9\\n"\n' >house/crates/latency/out/latency
    gives 0 latency t.tbl
    same out rows
    builds 2
    rm house/crates/latency/out/latency
    gives 0 latency t.tbl
    builds 3 'no program'
    rm house/target/latency.stamp
    gives 0 latency t.tbl
    builds 4 'no stamp'
    echo 'commit mine' >>house/target/latency.stamp
    gives 0 latency t.tbl
    builds 5 'a damaged stamp'
}

test_commit_of_other_sources_is_not_named() {
    scratch
    echo 'fn main() { }' >house/crates/latency/src/main.rt
    gives 0 latency t.tbl
    stamped_with 'commit unknown'
    git -C house checkout -q -- .
    gives 0 latency t.tbl
    stamped_commit
}

test_untracked_table_changes_nothing() {
    scratch
    cp t.tbl house/crates/latency/t.tbl
    cp t.tbl house/sub-links.tbl
    mkdir house/crates/latency/must-fail
    cp t.tbl house/crates/latency/must-fail/t.edit
    gives 0 latency t.tbl
    stamped_commit
    cp rows house/crates/latency/t.tbl
    gives 0 latency t.tbl
    builds 1
}

test_later_commit_without_sources_builds_nothing() {
    scratch
    gives 0 latency t.tbl
    before=$(git -C house rev-parse HEAD)
    echo >house/README.md
    commit second
    gives 0 latency t.tbl
    builds 1
    stamped_with "commit $before"
}

test_commit_of_another_repository_is_not_named() {
    scratch
    rm -rf house/.git
    git init -q .
    git add house
    git -c user.name=n -c user.email=e -c commit.gpgsign=false commit -q -m outer
    gives 0 latency t.tbl
    stamped_with 'commit unknown'
}

# What test.sh does: it notes the sources before rt ci, and stamps what that built.
test_stamp_of_a_built_program() {
    scratch
    noted=$("$front" stamp) || no "status $?"
    (cd house/crates/latency && rt run) >said 2>&1
    gives 0 stamp "$noted"
    gives 0 latency t.tbl
    quiet
    builds 1
    stamped_commit
    rm house/target/latency.stamp
    echo 'fn main() { }' >house/crates/latency/src/main.rt
    gives 3 stamp "$noted"
    [ ! -e house/target/latency.stamp ] || no "there is a stamp"
}
