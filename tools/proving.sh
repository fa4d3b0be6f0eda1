# What ./list, ./library and ./test share: one run at a time in a checkout, how far the proving is, and what they say and write.
# It is read by `. tools/proving.sh`. The script that reads it sets `me`, the name it speaks by, and `root`, the folder that has crates.txt.
# POSIX sh, with coreutils, awk, sed, find, and flock where it is there.
# shellcheck shell=sh disable=SC2154

# Says a line on standard error.
say() {
    echo "$me: $*" >&2
}

# Says what is wrong, and ends with status 1.
die() {
    say "$*"
    exit 1
}

# Says which word is not understood, then how the command is used, and ends with status 2.
wrong() {
    say "$*"
    usage >&2
    exit 2
}

# Ends with a word where a standard stream, by its number, is closed.
must_be_open() { # NUMBER NAME
    { true 3>&"$1"; } 2>/dev/null || die "standard $2 is closed"
}

# Writes a text to standard output. A reader that has gone ends it quietly, as it ends cat; any other error is said.
put() { # TEXT
    must_be_open 1 output
    { why=$(printf '%s\n' "$1" 2>/dev/null | LC_ALL=C cat 2>&1 >&3 3>&-) && status=0 || status=$?; } 3>&1
    [ "$status" -ne 0 ] || return 0
    [ "$status" -lt 128 ] || exit 141
    die "standard output cannot be written: ${why##*: }"
}

# Ends with a word where there is no kit that works.
find_kit() {
    command -v rt >/dev/null || die "no rt on the path: the Rattle kit is needed"
    kit=$(rt doc 2>&1) || die "the Rattle kit does not work: $(printf '%s\n' "$kit" | tail -n 1)"
}

# Prints the crates of the repository that a crate is built from, as crates.txt has them, each behind those that it needs; itself last.
needed() { # CRATE
    awk -F: -v crate="$1" '
        function need(name, part, count, i) {
            if (!(name in deps) || name in seen) return
            seen[name]
            count = split(deps[name], part, " ")
            for (i = 1; i <= count; i++) need(part[i])
            print name
        }
        { sub(/#.*/, ""); sub(/ staticlib:/, ":") }
        /^[a-z]/ { deps[$1] = $2 }
        END { need(crate) }' "$root/crates.txt"
}

# Whether a file is there, and no file of the crates that CRATE is built from is newer, nor a folder in which one was removed or put. What rt
# keeps in their out/ does not count, and so a crate's own folder does not, in which rt makes and moves out/.
is_current() { # FILE CRATE
    [ -f "$1" ] && [ -r "$1" ] || return 1
    # shellcheck disable=SC2046
    [ -z "$(cd "$root" && find crates.txt $(needed "$2" | sed 's|^|crates/|') -name out -prune -o \
        -newer "$1" \( ! -type d -o -path 'crates/*/*' \) -print 2>/dev/null | head -n 1)" ]
}

# Ends with a word where target/ cannot be written, or what rt keeps in the folders of the crates.
must_be_writable() {
    mkdir -p "$root/target" 2>/dev/null || true
    for part in "$root/target" "$root/target"/* "$root/crates"/* "$root/crates"/*/out; do
        [ "$part" = "$root/target" ] || [ -d "$part" ] || continue
        [ -d "$part" ] && [ -w "$part" ] && [ -x "$part" ] ||
            die "cannot write to $part: copy the checkout to a folder of your own, and run it there"
    done
}

# Waits until no other run is proving in this checkout, and keeps others waiting. The lock is flock's, on the checkout's folder, and goes
# with the last process of this run; where flock is missing or does not work here, it is a folder in target/ that names the process.
lock() {
    taken=65
    if command -v flock >/dev/null && [ -r "$root" ]; then
        exec 9<"$root"
        flock -n 9 2>/dev/null && return || taken=$?
    fi
    if [ "$taken" -eq 1 ]; then
        say "another run is proving in $root: this one waits for it"
        flock 9 2>/dev/null && return
    fi
    lock_by_folder
}

# The lock where there is no flock.
lock_by_folder() {
    held=$root/target/proving.lock
    waits=no
    until mkdir -p "$root/target" && mkdir "$held" 2>/dev/null; do
        process=$(cat "$held/process" 2>/dev/null) || process=
        [ -z "$process" ] || [ -d "/proc/$process" ] || [ ! -d "$held" ] ||
            die "a run that was stopped left $held behind: remove this folder, and try again"
        [ "$waits" = yes ] || say "another run is proving in $root: this one waits for it"
        waits=yes
        sleep 1
    done
    echo "$$" >"$held/process"
    trap 'rm -rf "$held"' EXIT
    trap 'exit 129' HUP
    trap 'exit 130' INT
    trap 'exit 143' TERM
}

# Lets other runs go on.
unlock() {
    exec 9<&-
    [ -z "${held:-}" ] || rm -rf "$held"
}

# Says how many crates are proved: on a terminal in one line that is written anew, elsewhere at every fifth and at the last.
say_progress() { # COUNT ALL
    if [ -t 2 ]; then
        printf '\r%s: %s of %s crates proved' "$me" "$1" "$2" >&2
        [ "$1" -lt "$2" ] || echo >&2
    elif [ $(($1 % 5)) -eq 0 ] || [ "$1" -eq "$2" ]; then
        say "$1 of $2 crates proved"
    fi
}

# Reads what rt says, to its last line, `ended STATUS`; puts it into a log; and says how many of the crates named are proved.
follow() { # LOG CRATE..
    log=$1
    shift
    left=" $* "
    all=$#
    count=0
    ended=1
    while IFS= read -r line; do
        name=
        case $line in
        'ended '*) ended=${line#ended } && continue ;;
        'crate '*': modules loaded='*) name=${line#crate } && name=${name%%:*} ;;
        esac
        printf '%s\n' "$line" >&4
        case $left in
        *" $name "*)
            left="${left%% "$name" *} ${left#* "$name" }"
            count=$((count + 1))
            say_progress "$count" "$all"
            ;;
        esac
    done 4>"$log"
    if [ -t 2 ] && [ "$count" -gt 0 ] && [ "$count" -lt "$all" ]; then echo >&2; fi
    return "$ended"
}

# Runs a command that proves what CRATE is built from, and says how far it is. Its output goes to a log; its status is this one's.
proving() { # LOG CRATE COMMAND WORD..
    log=$1
    crates=$(needed "$2")
    shift 2
    # shellcheck disable=SC2086
    { if "$@" </dev/null 2>&1 9<&-; then echo 'ended 0'; else echo "ended $?"; fi; } | follow "$log" $crates
}

# Prints the line of a log that says best why rt failed: what it was denied, the first function that is not proved, the first error with the
# whole path of its file, or the last line.
reason() { # LOG
    awk '/Permission denied|Read-only file system|No space left on device/ && !denied { denied = $0 }
        /: (not proved$|no proof: )/ && !unproved { unproved = $0 }
        /^\/.*: error(\[[a-z-]+\])?: / && !wrong { wrong = $0 }
        { last = $0 }
        END { print (denied ? denied : unproved ? unproved : wrong ? wrong : last) }' "$1"
}
