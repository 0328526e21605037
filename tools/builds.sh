# How programs are built, proved and unproved. It is read by scripts that have set:
#
#     root   the clone's folder
#     name   the name that lines on standard error begin with
#
# A build that HUP, INT or TERM interrupts ends before its script does, with all its processes, and nothing
# stays of it. Where nothing can be built the script ends with status 4, and tells why, with the lines of
# `rt`.
unset RT_ALLOW_C RT_BACKEND # (what is built hangs on the words alone)
made=       # a temporary folder, while there is one
lines=      # the file that gets what `rt` says
unfinished= # a folder that is not whole yet, beside the place where it is to stand
running=    # the process at the head of the session that runs, while one does

# tell LINE: writes the line to standard error.
tell() {
    echo "$name: $1" >&2
}

# refuse LINE: tells why nothing is run, and ends.
refuse() {
    tell "$1"
    clear_up
    exit 4
}

# clear_up: removes what a build has made on its way.
clear_up() {
    [ -z "$made" ] || rm -rf "$made"
    [ -z "$unfinished" ] || rm -rf "$unfinished"
}

# end SIGNAL: ends the build, removes what it has made, and ends the script by the signal.
end() {
    trap '' HUP INT TERM
    [ -z "$running" ] || "$root/tools/processes.py" "$running" || kill -- "-$running"
    wait
    clear_up
    trap - "$1"
    kill -s "$1" "$$"
}

# begin: sees that `rt` is there, and makes the folder of a build.
begin() {
    [ -x "$(command -v rt)" ] || refuse "not built yet, and rt, the command of Rattle's kit, is not on the path"
    make_folder
}

# make_folder: makes the temporary folder, which goes with the script where that is interrupted.
make_folder() {
    for signal in HUP INT TERM; do
        trap "end $signal" "$signal"
    done
    made=$(mktemp -d "${TMPDIR:-/tmp}/$name.XXXXXX") || refuse 'no temporary folder can be made'
    lines=$made/lines
}

# ended: a build is over, and nothing is left to be removed.
ended() {
    clear_up
    made=
    unfinished=
    trap - HUP INT TERM
}

# run WORD..: runs the words in a session of their own, by which all that they begin is found. (They run
# in the background, since a trap waits for what runs in front.)
run() {
    setsid "$@" < /dev/null &
    running=$!
    wait "$running"
    set -- $?
    running=
    return "$1"
}

# run_rt FOLDER WORD..: runs `rt` with the words in the folder. What it says goes to $lines.
run_rt() {
    folder=$1
    shift
    run env -C "$folder" rt "$@" >> "$lines" 2>&1
}

# below CRATE: the crates of this repository that it stands on, lowest first, and itself at last.
below() {
    awk -v last="$1" '
        function visit(crate, used, count, at) {
            if (!(crate in uses) || crate in seen) return
            seen[crate]
            count = split(uses[crate], used, " ")
            for (at = 1; at <= count; at++) visit(used[at])
            print crate
        }
        { sub(/#.*/, ""); colon = index($0, ":") }
        colon { split($0, left, /[ :]/); uses[left[1]] = substr($0, colon + 1) }
        END { visit(last) }' "$root/crates.txt"
}

# checksum: a checksum of what is read. (b2sum takes half the time of sha256sum.)
checksum() {
    set -- $(b2sum -l 256)
    echo "$1"
}

# files FOLDER PLACE..: a checksum and the name of each file in these places of the folder.
files() (
    cd "$1" && shift && find "$@" -type f -exec b2sum -l 256 {} + | LC_ALL=C sort
)

# places PARTS CRATE..: the folders that the crates have for these parts, from the clone's folder.
places() (
    cd "$root" && parts=$1 && shift || exit
    for crate; do
        for part in $parts; do
            [ ! -d "crates/$crate/$part" ] || echo "crates/$crate/$part"
        done
    done
)

# entries CLONE CRATE..: the lines that the crates have in crates.txt.
entries() (
    clone=$1 && shift && IFS='|'
    grep -E "^($*)[ :]" "$clone/crates.txt"
)

# What an unproved build is made of beside its crates.
makers='tools/keeping tools/gathered.py'

# unproved_sources CLONE CRATE..: a checksum of what an unproved build of the last crate is made of.
unproved_sources() {
    { entries "$@" && files "$1" $(shift && places src "$@") $makers; } | checksum
}

# copy CLONE CRATE..: makes a clone of what unproved builds of these crates are made of.
copy() {
    clone=$1
    shift
    for crate; do
        mkdir -p "$clone/crates/$crate" && cp -R "$root/crates/$crate/src" "$clone/crates/$crate" || return
    done
    mkdir -p "$clone/tools" && (cd "$root" && cp $makers "$clone/tools") && entries "$root" "$@" > "$clone/crates.txt" &&
        chmod -R u+w "$clone"
}

# loader FILE: the words that started a program when it kept itself, before its own two, a line each: the
# kit's loader and its words, or none. The file has all these words, with a NUL behind each.
loader() {
    tr '\0' '\n' < "$1" | sed '$d' | sed '$d'
}

# starter FILE CRATE: a script that starts the program beside it as that of the crate, in the way in which
# the file tells that it was started.
starter() {
    echo '#!/bin/sh'
    printf 'ARIADNE_BUILD=unproved ARIADNE_PROGRAM=%s exec ' "$2"
    loader "$1" | sed "s/'/'\\\\''/g; s/.*/'&'/" | tr '\n' ' '
    echo '"${0%/*}/program" "$@"'
}

# kit: which files `rt` and the provers beside it are, and since when each is as it is; nothing where there is
# no `rt`. (It takes three milliseconds, and `rt version` takes 50.)
kit() {
    found=$(command -v rt) || return 0
    found=$(readlink -f -- "$found")
    folder=${found%/*}
    echo $(stat -L -c %i:%.9Z "$folder"/rt* "$folder"/rattle* 2> /dev/null)
}

# find_unproved CRATE: sets `kept` to the folder of the program's unproved build from these sources.
# It may not be there yet.
find_unproved() {
    kept=$root/out/unproved/$1-$(unproved_sources "$root" $(below "$1"))
}

# is_kept: whether this build is there, the loader that starts it too, and no other kit made it than the
# one that is there, if any is. The file `kit` tells which kit made it, and behind that the loader, if it
# has one. (`rt ci` refuses a link in the repository.)
is_kept() {
    [ -x "$kept/start" ] && { read -r maker && read -r loader; } < "$kept/kit" &&
        [ -x "${loader:-$kept/program}" ] || return
    present=$(kit)
    [ "${present:-$maker}" = "$maker" ]
}

# build_unproved CRATE..: builds these programs without a proof, as one, and sets `kept` to the folder of the
# last, whose script `start` starts it. Where out/unproved/ can't be written this is below $made, which stays.
#
# `rt try` runs what it builds and keeps nothing. So it is given a copy of the sources whose program,
# where it has no environment, copies itself into a folder.
build_unproved() {
    copy "$made/clone" $(for crate; do below "$crate"; done | awk '!seen[$0]++') &&
        "$root/tools/gathered.py" "$made/clone" "$@" && mkdir "$made/kept" ||
        refuse 'the sources could not be copied'
    if ! run env -C "$made/clone/crates/gathered_programs" "PATH=$root/tools/unchecked:$PATH" rt try -- "$made/kept" \
        >> "$lines" 2>&1 || ! [ -s "$made/kept/started" ]; then
        cat "$lines" >&2
        refuse 'could not be built: rt says why above'
    fi
    for crate; do
        starter "$made/kept/started" "$crate" > "$made/kept/start" &&
            printf '%s\n' "$(kit)" "$(loader "$made/kept/started" | sed 1q)" > "$made/kept/kit" &&
            chmod -R a+rx "$made/kept" || refuse 'the build could not be kept'
        keep "$crate"
    done
    if [ "$kept" = "$made/kept" ]; then rm -rf "$made/clone"; else ended; fi
}

# keep CRATE: sets `kept` to the folder of the crate's build, and moves it there in place of older ones.
# Another run may have done so meanwhile.
keep() {
    # (The sources may have changed on the way.)
    kept=$root/out/unproved/$1-$(unproved_sources "$made/clone" $(below "$1"))
    unfinished=$root/out/unproved/.$1.$$
    if mkdir -p "$root/out/unproved" && cp -R "$made/kept" "$unfinished"; then
        is_kept || rm -rf "$root/out/unproved/$1"-*
        mv -T "$unfinished" "$kept" || rm -rf "$unfinished"
    else
        rm -rf "$unfinished"
        kept=$made/kept
    fi 2> /dev/null
    unfinished=
}

# ---- proved builds. BUILD is the path of one, from the clone's folder: a program, or the folder of the
# library. Beside it stands BUILD.record, which has a line each:
#
#     the words of `rt` that made it
#     which kit that was, as `kit` tells
#     a checksum of what it was made of and of its own bytes

# proved_places CRATE..: where the files stand of which proved builds of these crates are made.
proved_places() {
    places 'src specs proofs' "$@"
    case $* in
        *sewarqo_c*) printf '%s\n' bindings/c/heap.c bindings/c/sewarqo.h bindings/c/version.c tools/library ;;
    esac
}

# sums PLACE..: a checksum and the name of each file in these places of the clone.
sums() {
    files "$root" "$@"
}

# proved_checksum CRATE BUILD: a checksum of what a proved build of the crate is made of, and of its bytes.
proved_checksum() {
    crates=$(below "$1")
    { entries "$root" $crates && sums $(proved_places $crates) "$2"; } | checksum
}

# state CRATE..: a line that differs after each edit of what proved builds of these crates are made of, also
# after one that was taken back: the kit, and checksums of the files and of since when each is as it is.
state() (
    cd "$root" || exit
    set -- $(proved_places "$@")
    echo "$(kit) $(files . crates.txt "$@" | checksum) $(
        find crates.txt "$@" -printf '%p %i %C@\n' | LC_ALL=C sort | checksum)"
)

# put_record WORDS BUILD CHECKSUM: writes the record.
put_record() {
    record=$root/$2.record
    printf '%s\n' "$1" "$(kit)" "$3" > "$record.$$" && mv -T "$record.$$" "$record" ||
        refuse "$record can't be written"
}

# record WORDS CRATE BUILD STATE: takes down by which words the build was made, and of what, if the crates
# below still have the state that they had before.
record() {
    whole=$(proved_checksum "$2" "$3")
    [ "$(state $(below "$2"))" != "$4" ] || put_record "$1" "$3" "$whole"
}

# is_current CRATE BUILD: whether this proved build is there as its record tells, of these sources, and no
# other kit made it than the one that is there, if any is.
is_current() {
    [ -x "$root/$2" ] && [ -f "$root/$2.record" ] &&
        { read -r words && read -r maker && read -r whole; } < "$root/$2.record" || return
    case $words in
        'rt ci' | 'rt lib' | 'rt run' | 'rt test') ;;
        *) return 1 ;;
    esac
    present=$(kit)
    [ "${present:-$maker}" = "$maker" ] && [ -n "$whole" ] && [ "$(proved_checksum "$1" "$2")" = "$whole" ]
}

# has_libraries CRATE..: whether the libraries of these crates are there as tools/gate has left them, of
# these sources.
has_libraries() {
    for crate; do
        is_current "$crate" "crates/$crate/out/rlib" || return
    done
}

# has_proved LINE CRATE WORD..: runs `rt` with the words in the crate's folder. Where it fails the script
# ends with its last lines and this one.
has_proved() {
    line=$1
    crate=$2
    shift 2
    run_rt "$root/crates/$crate" "$@" || {
        tail -n 60 "$lines" >&2
        refuse "$line: rt says why above"
    }
}

# build_proved CRATE WORD..: has `rt` prove the program and build it, as crates/CRATE/out/CRATE. The words
# are those of a run that ends with status 0, since `rt` has no command that builds a program and does
# not run it.
build_proved() {
    before=$(state $(below "$1"))
    crate=$1
    shift
    has_proved 'could not be built' "$crate" run -- "$@"
    record 'rt run' "$crate" "crates/$crate/out/$crate" "$before"
}
