# shellcheck shell=bash disable=SC2154  # the names are those of run.sh
# What the parts of run.sh are written with.
checks=0

fail() {
    echo "console, $part: $*" >&2
    exit 1
}

# The desk of a part, in which the program runs: names in messages are relative, the same wherever the tests run.
begin() {
    rm -rf "$work/desk"
    mkdir "$work/desk"
    cd "$work/desk" || exit
    messages=$work/messages
    : >"$messages"
}

# A day's work: calendar, register and journal, the register on 2026-11-17. Made once.
day() {
    if [ ! -d "$work/day" ]; then
        mkdir "$work/day"
        (
            cd "$work/day" || exit
            "$program" calendar "$root/calendars/warsaw.txt" calendar
            "$program" start calendar register 2026-11-16 2413.37 --journal journal
            "$program" announce calendar register 2026-12 3100 --journal journal
            "$program" session calendar register 2026-11-17 2631.00 --journal journal
        ) >/dev/null
    fi
    cp "$work/day/"* .
}

# The same on a desk that has nothing else.
fresh() {
    find . -mindepth 1 -delete
    day
}

# fill REGISTER: as many announcements as can wait.
fill() {
    local price
    for price in $(seq 4000 50 5550); do
        expect 0 '' announce calendar "$1" 2026-12 "$price"
    done
}

# expect STATUS PATTERN WORD ..: runs sindhopul with the words. It must end with the status and say the pattern on
# standard error, or nothing where the pattern is empty; all that it says there is kept for compare_messages. Unless it is
# done it must answer nothing. With messages=/dev/null before it the message is not kept, where it is never twice the same.
expect() {
    local status=$1 pattern=$2 got=0
    shift 2
    "$program" "$@" >"$work/out" 2>"$work/err" || got=$?
    checks=$((checks + 1))
    [ "$got" -eq "$status" ] || fail "'$*' ended with $got, not $status: $(cat "$work/err")"
    if [ -z "$pattern" ]; then
        [ ! -s "$work/err" ] || fail "'$*' said: $(cat "$work/err")"
    else
        grep -Eq -- "$pattern" "$work/err" || fail "'$*' did not say '$pattern' but: $(cat "$work/err")"
        keep_message "$status" "$@"
    fi
    [ "$status" -eq 0 ] || [ ! -s "$work/out" ] || fail "'$*' ended with $got and answered: $(cat "$work/out")"
}

# keep_message STATUS WORD ..: what was said, headed by the status and the command line, in which no word is lost to sight.
keep_message() {
    local word line="$1: sindhopul"
    shift
    for word in "$@"; do
        case $word in '' | *[[:space:]]*) word="'$word'" ;; esac
        line="$line $word"
    done
    { echo "$line" && sed 's/^./    &/' "$work/err"; } >>"$messages"
}

compare_messages() {
    [ "${KEEP:-0}" = 0 ] || cp "$messages" "$here/expected/messages/$part"
    diff -u "$here/expected/messages/$part" "$messages" >&2 || fail "other messages than expected/messages/$part"
}

# refused CAUSE PATTERN WORD ..: refused with the number of the cause and its words; no file is changed.
refused() {
    local cause=$1 pattern=$2
    shift 2
    remember
    expect 1 "$pattern" "$@"
    grep -Eq "(^|[^0-9])$cause([^0-9]|\$)" "$work/err" || fail "'$*' did not name cause $cause: $(cat "$work/err")"
    unchanged
}

# trouble PATTERN WORD ..: bad use, or a file that cannot be had; no file is changed.
trouble() {
    local pattern=$1
    shift
    remember
    expect 2 "$pattern" "$@"
    unchanged
}

# lost HOW WHAT WORD ..: done, but the answer cannot be written: the disk is full, standard output closed, or a pipe that
# nobody reads. The message says that WHAT did move; nothing where that is empty.
lost() {
    local how=$1 what=$2 got=0
    shift 2
    case $how in
    full) exec 9>/dev/full ;;
    closed) exec 9>&- ;;
    unread)
        exec 9> >(:)
        wait $!
        ;;
    esac
    if [ "$how" = closed ]; then
        "$program" "$@" >&- 2>"$work/err" || got=$?
    else
        "$program" "$@" >&9 2>"$work/err" || got=$?
        exec 9>&-
    fi
    checks=$((checks + 1))
    [ "$got" -eq 2 ] || fail "'$*', its answer lost ($how), ended with $got: $(cat "$work/err")"
    if [ -n "$what" ]; then
        head -n 1 "$work/err" | grep -q "$what did move" || fail "'$*' ($how) did not say that $what did move: $(cat "$work/err")"
    elif ! grep -q . "$work/err" || grep -q 'did move' "$work/err"; then
        fail "'$*' ($how) said: $(cat "$work/err")"
    fi
    keep_message "$got" "$@" ">$how"
}

# told BEGINNING: the commands of the last message that begin so. run_told BEGINNING [SCRIPT]: run by a shell as they stand, or
# after a change by sed.
told() {
    sed -n "s/^.*\\($1 .*\\)\$/\\1/p" "$work/err"
}

run_told() {
    local commands
    commands=$(told "$1" | sed "${2:-}")
    [ -n "$commands" ] || fail "no '$1' is told: $(cat "$work/err")"
    mkdir -p "$work/bin"
    ln -sf "$program" "$work/bin/sindhopul"
    PATH=$work/bin:$PATH sh -e -c "$commands" >"$work/out" 2>"$work/err" || fail "what was told failed: $commands: $(cat "$work/err")"
    checks=$((checks + 1))
}

# answers NAME WORD ..: done, and the answer is the stored one.
answers() {
    local name=$1
    shift
    expect 0 '' "$@"
    [ "${KEEP:-0}" = 0 ] || cp "$work/out" "$here/expected/$name"
    diff -u "$here/expected/$name" "$work/out" >&2 || fail "'$*' has another answer than expected/$name"
}

# The files of the desk, all of them, one that came or went too: kind, mode, where a link leads, which file it is, when it
# was written, what it holds.
desk_files() {
    {
        find . -type d -printf '%p %y %m\n' -o -printf '%p %y %m %l %i %T@\n'
        find . -type f -exec cksum {} +
    } | LC_ALL=C sort
}

remember() {
    desk_files >"$work/kept"
}

unchanged() {
    desk_files | diff "$work/kept" - >&2 || fail "a file was changed"
}

# poke FILE PLACE BYTE: a byte in octal.
poke() {
    printf '%b' "\\0$3" | dd of="$1" bs=1 seek="$2" conv=notrunc status=none
}

# stands DAY REGISTER
stands() {
    expect 0 '' show calendar "$2"
    grep -q "^$1: " "$work/out" || fail "$2 does not stand at $1 but: $(head -n 1 "$work/out")"
}

# has FILE LINE: the last line.
has() {
    [ "$(tail -n 1 "$1")" = "$2" ] || fail "the last line of $1 is not '$2' but: $(tail -n 1 "$1")"
    checks=$((checks + 1))
}

# same FILE FILE
same() {
    cmp "$1" "$2" >&2 || fail "$1 is not $2"
    checks=$((checks + 1))
}
