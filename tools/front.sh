# shellcheck shell=sh disable=SC2154,SC3045
# The front of the project's programs: finds a program, builds it where it is missing, runs it, and makes an exit status of what it says.
# A script sources this file after it has set `here`, the folder that it stands in with its links followed; then it calls
# `front NAME WORDS..`. It may set `valued`, the options that take a value and go to the program, `filed`, those of them whose value is a file
# that the program writes beside its standard output, `bare`, those that go to it without one, `suffix`,
# what a result's name has behind that of its listing, `operands`, how many files the program takes (where it is not set: one or none, and -o for many), `stack`, the
# KiB of stack that the program is lent where that many are allowed, and `slow`, where it shall be said that a listing takes long, and has to define `usage`.
#
#   in the repository   here/tools/front.sh, here/tools/run-built, here/tools/built, here/VERSION, here/TOOLCHAIN, here/target/bin/NAME
#   installed           PREFIX/bin/NAME (the script; here is PREFIX/bin), and in PREFIX/libexec/optlines/ the files front.sh, run-built,
#                       VERSION, TOOLCHAIN and NAME (the program). Nothing is built then.
#
# The programs set no exit status. What one says on standard error decides: nothing is 0, a first line that begins
# `NAME: refused ` is 1, anything else is 2. Every message of a program or of this file has fixed words in front of a file's name.

die() { printf '%s: %s\n' "$name" "$*" >&2; exit 2; }

note() { printf '%s: %s\n' "$name" "$*" >&2; }

# What has to be removed and ended when the script ends, however it ends.
scratch='' waiter='' lent=''
clean() {
    hush
    take_back
    [ -z "$scratch" ] || rm -rf -- "$scratch"
    scratch=
}
stop() { # SIGNAL
    clean
    trap - "$1" EXIT
    kill -s "$1" $$
}
guard() {
    trap clean EXIT
    for signal in HUP INT TERM; do
        # shellcheck disable=SC2064
        trap "stop $signal" "$signal"
    done
}

# Where things stand: in the repository, or installed.
locate() {
    if [ -f "$here/tools/front.sh" ]; then
        root=$here data=$here runner=$here/tools/run-built program=$here/target/bin/$name
    else
        root='' data=$here/../libexec/optlines
        runner=$data/run-built program=$data/$name
    fi
}

version() {
    printf '%s %s\n' "$name" "$(cat "$data/VERSION")"
    printf 'for the Rattle toolchain: %s\n' "$(cat "$data/TOOLCHAIN")"
}

# How many crates of the repository a program is made of, itself among them.
crates_of() { # NAME
    WANTED=$1 awk '
        function visit(crate,    below, k, many) {
            if (!(crate in needs) || crate in seen) return
            seen[crate] = 1
            count++
            many = split(needs[crate], below, " ")
            for (k = 1; k <= many; k++) visit(below[k])
        }
        { sub(/#.*/, ""); at = index($0, ":") }
        at { crate = substr($0, 1, at - 1); gsub(/[ \t]/, "", crate); needs[crate] = substr($0, at + 1) }
        END { visit(ENVIRON["WANTED"]); print count + 0 }' "$root/crates.txt"
}

# Shows what rt says of each crate, and which of how many it is. Its last line is the status that rt ended with.
progress() { # COUNT
    seen=0
    while IFS= read -r line; do
        case $line in
        'rt: status 0') return 0 ;;
        'rt: status '*) return 1 ;;
        'rt: ok, '* | 'rt: '*' ran'*) ;;
        'rt: '*' proved ('*)
            seen=$((seen + 1))
            note "$seen of $1: ${line#rt: }"
            ;;
        'rt: '*) note "${line#rt: }" ;;
        esac
    done
    return 1
}

has_rt() { command -v rt >/dev/null || die 'no rt in PATH: install the Rattle toolchain, then run this again'; }

pinned() {
    [ "$(rt version)" = "$(cat "$data/TOOLCHAIN")" ] || note "the project is for the toolchain $(cat "$data/TOOLCHAIN"), and rt is $(rt version)"
}

# Says where the program is older than its sources.
say_stale() {
    [ -d "$root/crates" ] || return 0
    [ -z "$(find "$root/crates" -name out -prune -o -name '*.rt' -newer "$program" -print | head -n 1)" ] ||
        note "sources are newer than the program: tools/built $name builds it anew"
}

# Proves and builds the program, where it is not there.
build() {
    [ ! -x "$program" ] || { say_stale; return 0; }
    [ -n "$root" ] || die "not installed whole: no program $program"
    has_rt
    pinned
    count=$(crates_of "$name")
    note "proving and building, once: $count crates, about 20 minutes on two cores"
    note "for a quick look, in half a minute and unproved, stop this and run: $0 --unproved .."
    { "$root/tools/built" "$name" </dev/null 2>&1; echo "rt: status $?"; } | progress "$count" ||
        die 'not built: target/log/ has what the prover said of each crate'
}

# A stand-in for the folder of the toolchain, whose linker keeps the program that it makes.
stand_in() { # KIT FOLDER PROGRAM
    mkdir -p "$2/bin" "$2/toolchain/bin" || return
    cp "$1/bin/rt" "$1/bin/rtlib.py" "$2/bin/" || return
    for each in "$1"/bin/* "$1"/toolchain/bin/* "$1"/toolchain/lib "$1"/*; do
        case $each in
        "$1/bin" | "$1/toolchain" | */bin/rt | */bin/rtlib.py | */bin/ld.lld) ;;
        *) ln -s "$each" "$2${each#"$1"}" || return ;;
        esac
    done
    cat >"$2/toolchain/bin/ld.lld" <<END || return
#!/bin/sh
"$1/toolchain/bin/ld.lld" "\$@" || exit
while [ "\$1" != -o ]; do shift; done
cp "\$2" "$3"
END
    chmod +x "$2/toolchain/bin/ld.lld"
}

# Builds the program with no proof. `rt try` compiles it, runs it on its sample and keeps nothing, so a stand-in keeps the linked program.
build_unproved() {
    [ -n "$root" ] || die 'an installed program is not built anew: --unproved is for the repository'
    program=$root/target/unproved/$name
    [ ! -x "$program" ] || [ -n "$(find "$root/crates" -name out -prune -o -name '*.rt' -newer "$program" -print | head -n 1)" ] || return 0
    has_rt
    kit=$("$runner" --kit) || exit 2
    note 'building without a proof, about half a minute'
    scratch=$(mktemp -d) || die 'cannot make a temporary folder'
    stand_in "$kit" "$scratch" "$scratch/$name" || die 'cannot make a stand-in for the toolchain'
    sample=$root/crates/$name/stdin
    [ -f "$sample" ] || sample=/dev/null
    said=$(cd "$root/crates/$name" && "$scratch/bin/rt" try 2>&1 <"$sample" && [ -f "$scratch/$name" ]) ||
        { printf '%s\n' "$said" >&2; die 'not built: what rt says stands above'; }
    mkdir -p "$root/target/unproved" || die 'cannot make target/unproved'
    mv -f -- "$scratch/$name" "$program" || die 'cannot write target/unproved'
    clean
}

# Says how long the program has been at work: after a second, and every ten seconds.
tell_time() {
    seconds=0
    while sleep 1 2>/dev/null; do
        seconds=$((seconds + 1))
        [ $((seconds % 10)) -ne 1 ] || note "at work for $seconds s"
    done
}

watch() { [ -z "${slow-}" ] || { tell_time </dev/null >/dev/null & waiter=$!; }; }

hush() {
    [ -z "$waiter" ] || { kill "$waiter"; wait "$waiter"; } 2>/dev/null
    waiter=
}

# Whether the program has as large a stack as it may need.
has_stack() { [ -z "${stack-}" ] || { [ "$(ulimit -s)" != unlimited ] && [ "$(ulimit -s)" -ge "$stack" ]; }; }

# Lends the program such a stack, where that is allowed. An emulator takes a number for the limit alone.
lend_stack() { has_stack || ulimit -S -s "$stack" 2>/dev/null; }

# Whether a word is UTF-8: a program in Rattle opens no file of another name.
is_text() { # WORD
    case $1 in
    *[!\ -~]*) printf %s "$1" | iconv -f UTF-8 -t UTF-8 >/dev/null 2>&1 ;;
    esac
}

# Puts the words into $words as the shell reads them back. One that is not UTF-8 is lent to the program as a link to that file.
lend() { # WORDS..
    words='' links=0
    for word in "$@"; do
        if ! is_text "$word"; then
            [ -n "$lent" ] || lent=$(mktemp -d) || die 'cannot make a temporary folder'
            links=$((links + 1))
            eval "name_$links=\$word"
            case $word in /*) ;; *) word=$PWD/$word ;; esac
            ln -s -- "$word" "$lent/$links" || die 'cannot make a link in a temporary folder'
            word=$lent/$links
        fi
        words="$words$(quoted "$word")"
    done
}

# Names the files themselves in what the program said, and not the links.
name_again() {
    while [ "$links" -gt 0 ]; do
        eval "word=\$name_$links"
        told='' left_said=$said
        while :; do
            case $left_said in
            *"$lent/$links"*) ;;
            *) break ;;
            esac
            told=$told${left_said%%"$lent/$links"*}$word
            left_said=${left_said#*"$lent/$links"}
        done
        said=$told$left_said links=$((links - 1))
    done
    take_back
}

take_back() {
    [ -z "$lent" ] || rm -rf -- "$lent"
    lent=
}

# Runs the program, its standard output going where this function's goes. What it says is kept, and a status is made of it. A reader that
# went away is an error of the write, and no signal.
run() { # WORDS..
    lend "$@"
    eval "set -- $words"
    watch
    { said=$({ trap '' PIPE; lend_stack || :; "$runner" "$program" "$@" >&3 3>&-; } 2>&1); } 3>&1
    ended=$?
    hush
    name_again
    case $ended-$said in
    0-) return 0 ;;
    0-"$name: refused "*) return 1 ;;
    0-*) return 2 ;;
    esac
    [ "$ended" -le 128 ] || ended="$ended, which is signal $((ended - 128))"
    said="${said:+$said
}$name: the program ended with status $ended"
    (lend_stack) || said="$name: the stack may not grow to $stack KiB, which this listing needs: ulimit -s raises its limit where that is allowed"
    return 2
}

# One listing to standard output.
one() { # WORDS..
    (: 3>&1) 2>/dev/null || die 'cannot write standard output: it is closed'
    run "$@"
    status=$?
    [ -z "$said" ] || printf '%s\n' "$said" >&2
    return "$status"
}

# The name of FILE's result. A name that begins with - is not taken for an option.
result_of() { out=$folder/${1##*/}${suffix-}; }

# Says why the results cannot stand in the folder, before anything is written: each needs a name of its own, and none may be a listing.
refuse_clashes() { # FILES..
    [ -d "$folder" ] || die "no such folder: $folder"
    for file in "$@"; do
        case ${file##*/} in
        '' | . | ..) die "not the name of a listing: $file" ;;
        -) [ "$file" != - ] || die 'with -o each listing needs a name, and standard input has none' ;;
        esac
    done
    twice=$(printf '%s\0' "$@" | LC_ALL=C sed -z 's,.*/,,' | LC_ALL=C sort -z | LC_ALL=C uniq -zd | tr '\0' '\n' | head -n 1)
    [ -z "$twice" ] || die "two listings would have one result: $folder/$twice"
    same=$({
        stat -L -c %d:%i -- "$@" | sort -u
        for file in "$@"; do
            result_of "$file"
            [ ! -e "$out" ] || stat -L -c %d:%i -- "$out"
        done | sort -u
    } 2>/dev/null | sort | uniq -d | head -n 1)
    [ -n "$same" ] || return 0
    for file in "$@"; do
        result_of "$file"
        [ "$(stat -L -c %d:%i -- "$out" 2>/dev/null)" != "$same" ] || die "the result would overwrite a listing: $out"
    done
}

# The reason in the last words of what a command said.
reason() { printf '%s' "${1##*: }"; }

# Moves what was written to its place, readable by whom a new file would be.
move() {
    LC_ALL=C chmod "$(printf %o $((0666 & ~0$(umask))))" "$scratch" && LC_ALL=C mv -f -T -- "$scratch" "$out"
}

# One listing to its own file: written beside it and moved there whole, or not at all.
one_to_file() { # FILE WORDS..
    file=$1
    shift
    result_of "$file"
    [ ! -d "$out" ] || { note "cannot write $out: it is a folder"; return 2; }
    scratch=$(LC_ALL=C mktemp -- "$folder/.$name.XXXXXX" 2>&1) || { why=$scratch scratch=; note "cannot write $out: $(reason "$why")"; return 2; }
    run "$@" -- "$file" >"$scratch"
    status=$?
    case $said in
    '') ;;
    "$name: cannot write standard output: "*) note "cannot write $out: $(reason "$said")" ;;
    *) printf '%s\n' "$said" >&2 ;;
    esac
    if [ "$status" -eq 0 ]; then
        why=$(move 2>&1) || { note "cannot write $out: $(reason "$why")"; status=2; }
    fi
    clean
    return "$status"
}

# Refuses a file that the program would write over a listing, or over a folder.
refuse_beside() { # FILES..
    [ ! -d "$out" ] || die "cannot write $out: it is a folder"
    for file in "$@"; do
        [ ! "$out" -ef "$file" ] || die "$beside_option would overwrite the listing: $out"
    done
}

# One listing to standard output, and what the program writes beside it to a file: moved there whole, or not at all.
one_and_beside() { # FILES..
    case $beside in -*) out=./$beside ;; *) out=$beside ;; esac
    refuse_beside "$@"
    scratch=$(LC_ALL=C mktemp -- "$(dirname -- "$out")/.$name.XXXXXX" 2>&1) || { why=$scratch scratch=; die "cannot write $out: $(reason "$why")"; }
    (: 3>&1) 2>/dev/null || die 'cannot write standard output: it is closed'
    eval "run $passed $(quoted "$beside_option") $(quoted "$scratch") -- \"\$@\""
    status=$?
    case $said in
    '') ;;
    "$name: cannot write $scratch: "*) note "cannot write $out: $(reason "$said")" ;;
    *) printf '%s\n' "$said" >&2 ;;
    esac
    if [ "$status" -eq 0 ]; then
        why=$(move 2>&1) || { note "cannot write $out: $(reason "$why")"; status=2; }
    fi
    clean
    return "$status"
}

# Each listing to its own file. The status is the worst.
each_to_file() { # FILES..; the program's words are in $passed
    refuse_clashes "$@"
    worst=0 at=0
    for file in "$@"; do
        at=$((at + 1))
        eval "one_to_file \"\$file\" $passed"
        status=$?
        [ "$status" -ne 0 ] || note "$at of $#: wrote $out"
        [ "$status" -le "$worst" ] || worst=$status
    done
    return "$worst"
}

# A word as the shell reads it back.
quoted() { printf "'"; printf '%s' "$1" | LC_ALL=C sed "s/'/'\\\\''/g"; printf "' "; }

takes_value() { case " ${valued-} " in *" $1 "*) return 0 ;; *) return 1 ;; esac }

# Notes an option that takes a value: it goes to the program, or is a file that is written beside.
keep() { # OPTION VALUE
    case " ${filed-} " in
    *" $1 "*)
        [ -n "$2" ] || die "$1 wants a file (see --help)"
        beside_option=$1 beside=$2
        ;;
    *) passed="$passed$(quoted "$1")$(quoted "$2")" ;;
    esac
}

stands_bare() { case " ${bare-} " in *" $1 "*) return 0 ;; *) return 1 ;; esac }

front() { # NAME WORDS..
    name=$1
    shift
    locate
    folder='' unproved='' passed='' beside='' literal='' left=$#
    while [ "$left" -gt 0 ]; do
        word=$1 left=$((left - 1))
        shift
        case $literal$word in
        --) literal=: ;;
        -h | --help) usage && exit 0; die 'cannot write standard output' ;;
        -V | --version) version && exit 0; die 'cannot write standard output' ;;
        --unproved) unproved=1 ;;
        -o)
            [ -n "${1-}" ] || die '-o wants a folder (see --help)'
            [ "$left" -gt 0 ] || die '-o wants a folder (see --help)'
            folder=$1 left=$((left - 1))
            shift
            ;;
        --*=*)
            takes_value "${word%%=*}" || die "no such option: $word (see --help)"
            keep "${word%%=*}" "${word#*=}"
            ;;
        -?*)
            if stands_bare "$word"; then passed="$passed$(quoted "$word")"; continue; fi
            takes_value "$word" || die "no such option: $word (see --help; a file that begins with - stands behind --)"
            [ "$left" -gt 0 ] || die "$word wants a value (see --help)"
            keep "$word" "$1"
            left=$((left - 1))
            shift
            ;;
        *) set -- "$@" "$word" ;;
        esac
    done
    serve "$@"
}

# Runs a program that takes so many files, each as it is named.
serve_all() { # FILES..
    [ -z "$folder" ] || die 'no such option: -o (see --help)'
    [ $# -eq "$operands" ] || die "$operands files are wanted, and $# are named (see --help)"
    guard
    if [ -n "$unproved" ]; then build_unproved; else build; fi
    [ -z "$unproved" ] || note 'this program is NOT PROVED: it was built without a proof'
    eval "one $passed \"\$@\""
    exit
}

# Does what was asked, once the words are taken apart.
serve() { # FILES..
    [ -z "${operands-}" ] || serve_all "$@"
    case $folder in -*) folder=./$folder ;; esac
    [ -n "$folder" ] || [ $# -le 1 ] || die 'more than one file is named: -o FOLDER gives each its own result'
    [ -z "$folder" ] || [ $# -gt 0 ] || die '-o wants the files to tidy (see --help)'
    [ -z "$folder" ] || [ -z "$beside" ] || die "$beside_option is for one listing, and -o for many"
    guard
    if [ -n "$unproved" ]; then build_unproved; else build; fi
    [ -z "$unproved" ] || note 'this program is NOT PROVED: it was built without a proof'
    if [ -n "$folder" ]; then each_to_file "$@"; exit; fi
    [ $# -gt 0 ] || [ ! -t 0 ] || note 'reading standard input; Ctrl-D at the start of a line ends it'
    if [ -n "$beside" ]; then one_and_beside "$@"; exit; fi
    eval "one $passed -- \"\$@\""
    exit
}
