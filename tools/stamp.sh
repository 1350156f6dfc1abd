# What program is in use: read by ../avulgjesh. A program is proved and built by rt; its stamp says from what, and each run compares: the
# program's SHA-256, the sources' hash and the toolchain. The commit is named if the sources are the commit's. rt keeps its own work and the
# program in the crate's folder out, and what is ours stands in target, which rt does not touch.

# Each verb that answers has its program; that of the records is latency.
PROGRAMS='latency unpack pack'
choose() { # NAME: the program that is looked at, built and stamped from here on
    named=$1
    program=$home/crates/$1/out/$1
    stamp=$home/target/$1.stamp
    ready=no
}
choose latency

# The sources: crates.txt, every .rt file of a crate's src and every .antt file of its specs and proofs, by path and content. Tables, notes,
# must-fail edits and the runs' stdin and stdout are no part: they try the program and do not make it. Nor is what rt made of the sources,
# crates/NAME/out, which has copies of them.
sources_now() { # the hash in $sources, and sha256sum's lines in $work/sources
    (
        cd -- "$home" &&
            find -L crates.txt crates -path 'crates/*/out' ! -path 'crates/*/*/*' -prune -o -type f \( -path crates.txt \
                -o -path 'crates/*/src/*.rt' -o -path 'crates/*/specs/*.antt' -o -path 'crates/*/proofs/*.antt' \) -exec sha256sum {} +
    ) >"$work/found" 2>"$work/said" || die 3 "the sources cannot be hashed: $(tail -n 1 "$work/said")"
    sort "$work/found" >"$work/sources" || die 3 "a private file cannot be written"
    sha_of "$work/sources"
    sources=$sha
}

# The commit whose sources these are, or unknown: no git, another repository's folder, changed, added or deleted sources.
commit_now() { # after sources_now
    commit=unknown
    command -v git >/dev/null 2>&1 || return 0
    [ "$(git -C "$home" rev-parse --show-toplevel 2>/dev/null)" = "$home" ] || return 0
    head=$(git -C "$home" rev-parse --verify --quiet HEAD) || return 0
    git -C "$home" ls-tree -r "$head" -- crates.txt crates 2>/dev/null |
        awk -F '\t' '
            $2 == "crates.txt" || $2 ~ /^crates\/[^\/]*\/(src\/.*\.rt|(specs|proofs)\/.*\.antt)$/ { split($1, w, " "); print w[3] " " $2 }' |
        sort >"$work/committed"
    sed 's/^[0-9a-f]*  //' "$work/sources" >"$work/paths"
    (cd "$home" && git hash-object --no-filters --stdin-paths <"$work/paths" 2>/dev/null) >"$work/blobs" || return 0
    paste -d ' ' "$work/blobs" "$work/paths" | sort >"$work/present"
    ! cmp -s "$work/committed" "$work/present" || commit=$head
}

toolchain_now() {
    toolchain=
    ! command -v rt >/dev/null 2>&1 || toolchain=$(rt version 2>/dev/null </dev/null) || toolchain=
}

lines() { printf 'program-sha256 %s\nsources-sha256 %s\ncommit %s\ntoolchain %s\n' "$@"; } # PROGRAM SOURCES COMMIT TOOLCHAIN

field() { sed -n "s/^$1 //p" "$stamp"; } # NAME: its value in the stamp

# Whether the program that is there is the one of the stamp, from these sources and this toolchain; if not, $differs says what is other.
look() {
    sources_now
    toolchain_now
    differs=
    if [ ! -f "$program" ]; then
        differs="it is not there"
    elif [ ! -f "$stamp" ]; then
        differs="it has no stamp"
    elif ! lines "$(field program-sha256)" "$(field sources-sha256)" "$(field commit)" "$(field toolchain)" | cmp -s - "$stamp"; then
        differs="its stamp is damaged"
    else
        sha_of "$program"
        [ "$(field program-sha256)" = "$sha" ] || differs="the program is not the one that was stamped"
        [ "$(field sources-sha256)" = "$sources" ] || differs=${differs:+$differs; }"the sources are others"
        [ -z "$toolchain" ] || [ "$(field toolchain)" = "$toolchain" ] || differs=${differs:+$differs; }"the toolchain is another"
    fi
    [ -z "$differs" ]
}

# Compares sources and toolchain with what was noted before the proof, and stamps the program that was built.
stamped() { # SOURCES COMMIT TOOLCHAIN
    sources_now
    toolchain_now
    [ "$sources" = "$1" ] || die 3 "the sources changed while they were proved: the program is not stamped, run this again"
    [ "$toolchain" = "$3" ] || die 3 "the toolchain changed during the proof: the program is not stamped, run this again"
    [ -x "$program" ] || die 3 "rt built no $program"
    sha_of "$program"
    lines "$sha" "$1" "$2" "$3" >"$stamp.new" || die 3 "$stamp cannot be written"
    mv -f -- "$stamp.new" "$stamp" || die 3 "$stamp cannot be written"
}

# The crates that the program stands on, each after those below it, and last the program.
crates_reached() {
    awk -v named="$named" '
        { sub(/#.*/, ""); i = index($0, ":") }
        i { split(substr($0, 1, i - 1), w, " "); deps[w[1]] = substr($0, i + 1) }
        function visit(name,    d, k, n) {
            if (!(name in deps) || name in seen) return
            seen[name]
            n = split(deps[name], d, " ")
            for (k = 1; k <= n; k++) visit(d[k])
            print name
        }
        END { visit(named) }' "$home/crates.txt"
}

# One build at a time: the file target/building has the number of the process that builds. It is a second name of a file that is whole already;
# a symbolic link, which could name the process by itself, rt ci refuses in a checkout.
locked() {
    mkdir -p -- "$home/target" || die 3 "$home/target cannot be made"
    lock=$home/target/building.$$
    echo "$$" 2>/dev/null >"$lock" || die 3 "$home/target cannot be written"
    waits=no
    misses=0
    until ln -- "$lock" "$home/target/building" 2>/dev/null; do
        holder=$(cat -- "$home/target/building" 2>/dev/null) || holder=
        if [ -z "$holder" ]; then
            misses=$((misses + 1))
            [ "$misses" -lt 10 ] || die 3 "$home/target/building cannot be made"
        elif [ ! -d "/proc/$holder" ]; then
            rm -f -- "$home/target/building"
        elif [ "$waits" = no ]; then
            say "process $holder is building (target/building has its number); this one waits"
            waits=yes
        fi
        [ -z "$holder" ] || { misses=0; sleep 1; }
    done
    rm -f -- "$lock"
    lock=$home/target/building
}

# Has rt prove a crate: a library, or the program, which is built too, run on the crate's file stdin, and has to write its file stdout.
by_rt() { # CRATE
    cd -- "$home/crates/$1" || return
    [ "$1" = "$named" ] || { rt lib </dev/null; return; }
    given=/dev/null wanted=/dev/null
    [ ! -f stdin ] || given=stdin
    [ ! -f stdout ] || wanted=stdout
    rt run <"$given" >"$work/ran" || { status=$?; head -n 5 "$work/ran" >&2; return "$status"; }
    cmp -- "$work/ran" "$wanted" >&2 || { echo "$named writes something else than its file stdout has" >&2; return 1; }
}

build() {
    [ -n "$toolchain" ] || die 3 "the program cannot be proved and built, since rt is not on the path or does not answer: $differs"
    commit_now
    log=$home/target/$named.log
    reached=$(crates_reached)
    total=$(echo "$reached" | wc -l)
    total=$((total))
    say "proving and building the program $named ($differs): $total crates, some minutes"
    # A program or a note of rt that is there already would be taken for what is built now.
    rm -f -- "$program" "$stamp" "$program.stamp"
    noted_sources=$sources noted_commit=$commit noted_toolchain=$toolchain
    : >"$log" || die 3 "$log cannot be written"
    proved=0
    for crate in $reached; do
        begun=$(date +%s)
        before=$(wc -c <"$log")
        (by_rt "$crate") >>"$log" 2>&1 || { tail -n 5 "$log" >&2; die 3 "the proof or the build failed: $log has all that rt said"; }
        proved=$((proved + 1))
        how='unchanged since it was last proved'
        ! tail -c "+$((before + 1))" "$log" | grep -q '^logic=proved' || how="$(($(date +%s) - begun)) s"
        say "$proved of $total: $crate proved ($how)"
    done
    stamped "$noted_sources" "$noted_commit" "$noted_toolchain"
    say "the program is proved, built and stamped"
}

# The program is there, and is the one of its stamp. Without rt the toolchain is not looked at.
program_ready() {
    [ "$ready" = no ] || return 0
    if ! look; then
        [ -n "$toolchain" ] || build
        locked
        look || build
        rm -f -- "$lock"
        lock=
    fi
    [ -n "$toolchain" ] || say "toolchain not looked at: there is no rt on the path that answers"
    ready=yes
}

# For test.sh: without an argument prints what is noted before the proof; with it, stamps the programs that were built from that.
stamp() {
    if [ $# -eq 0 ]; then
        sources_now
        commit_now
        toolchain_now
        printf '%s %s %s\n' "$sources" "$commit" "$toolchain" >"$work/out" || die 3 "a private file cannot be written"
        put "$work/out"
    else
        mkdir -p -- "$home/target"
        rest=${1#* }
        for name in $PROGRAMS; do
            choose "$name"
            [ ! -x "$program" ] || stamped "${1%% *}" "${rest%% *}" "${rest#* }"
        done
        choose latency
        [ -x "$program" ] || die 3 "rt built no $program"
    fi
}
