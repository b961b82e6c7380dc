#!/bin/sh
# Every command that writes, at each of its system calls in turn: killed before the call, killed after it, and the call
# failing. What must hold then stands in faults.c.
# usage: tests/console/faults.sh SINDHOPUL [CASE ..]
set -eu
here=$(cd "$(dirname "$0")" && pwd)
program=$(realpath "$1")
shift
tools=$(mktemp -d)
# In memory where the system has such a folder: every step brings files to the disk.
work=$(mktemp -d -p /dev/shm 2>/dev/null || mktemp -d)
trap 'rm -r "$tools" "$work"' EXIT
"${CC:-cc}" -std=c11 -Wall -Wextra -Werror -pedantic -O2 "$here/faults.c" "$here/fault_at.c" -o "$tools/faults"

# A day's files: an expiry with an announcement waiting, so that in the next session rows leave, rows come and places are
# cleared.
mkdir "$work/day"
cd "$work/day"
cp "$here/../../calendars/warsaw.txt" list
"$program" calendar list calendar >/dev/null
"$program" start calendar register 2026-11-20 2413.37 --journal journal >/dev/null
"$program" announce calendar register 2026-12 3925 --journal journal >/dev/null

# How the files are before a case, in old/: as on that day, but for what each of these does.
as_on_that_day() { :; }
cut_line() { printf 'session 2026-1' >>journal; }
none_but_calendar() { rm list register journal; }
only_started() {
    head -n 1 journal >older
    mv older journal
    rm register
    "$program" replay calendar journal register >/dev/null
}
journal_ahead() {
    cp register older
    "$program" session calendar register 2026-11-23 2480.25 --journal journal >/dev/null
    mv older register
}
no_register() { rm register; }
empty_register() { head -c 11264 /dev/zero >register; }
older_register() {
    head -n 1 journal >older
    rm register
    "$program" replay calendar older register >/dev/null
    rm older
}
no_calendar() { rm calendar; }
older_calendar() {
    grep -v '^2026' list >older
    rm calendar
    "$program" calendar older calendar >/dev/null
    rm older
}
older_picture() {
    "$program" start calendar older 2026-11-19 2413.37 >/dev/null
    "$program" picture calendar older picture.svg >/dev/null
    rm older
}
older_series() {
    "$program" start calendar older 2026-11-19 2413.37 --file series >/dev/null
    rm older
}
ahead_with_series() {
    older_series
    journal_ahead
}

# No line of the old journal is missing in the new one; one that was taken back stands in a comment.
keeps_lines() {
    while read -r line; do
        grep -qF -- "${line%% = *}" "$work/new/journal" || {
            echo "faults: $name: the whole command lost the journal's line: $line" >&2
            exit 1
        }
    done <"$work/old/journal"
}

# try NAME BEFORE REPLACED APPENDED AGAIN WORD ..
try() {
    name=$1 before=$2 replaced=$3 appended=$4 again=$5
    shift 5
    rm -rf "$work/old" "$work/new" "$work/desk"
    cp -R "$work/day" "$work/old"
    cd "$work/old"
    "$before"
    cp -R "$work/old" "$work/new"
    cd "$work/new"
    "$program" "$@" >/dev/null 2>"$work/message" || {
        echo "faults: $name: the whole command ended with $?: $(cat "$work/message")" >&2
        exit 1
    }
    if [ -e "$work/old/journal" ]; then keeps_lines; fi
    mkdir "$work/desk"
    cd "$work"
    "$tools/faults" "$name" "$replaced" "$appended" "$again" "$program" "$@"
}

# Name, how the files are before, those that are replaced, the journal that gets a line, what the same command does where
# the work is done (see faults.c), and the command.
tried=0
while read -r name before replaced appended again words; do
    case " $* " in '  ' | *" $name "*) ;; *) continue ;; esac
    # shellcheck disable=SC2086  # the words are several
    try "$name" "$before" "$replaced" "$appended" "$again" $words </dev/null
    tried=$((tried + 1))
done <<'END'
session            as_on_that_day    register         journal 19 session calendar register 2026-11-23 2480.25 --journal journal
session-cut        cut_line          register         journal 19 session calendar register 2026-11-23 2480.25 --journal journal
session-ahead      journal_ahead     register         -       -  session calendar register 2026-11-23 2480.25 --journal journal
start              none_but_calendar register         journal 16 start calendar register 2026-11-20 2413.37 --journal journal
announce           as_on_that_day    register         journal 24 announce calendar register 2027-03 3500 --journal journal
replay             no_register       register         -       0  replay calendar journal register
replay-empty       empty_register    register         -       0  replay calendar journal register
replay-older       older_register    register         -       0  replay calendar journal register --force
undo               as_on_that_day    register,journal -       -  undo calendar register journal
undo-cut           cut_line          register,journal -       -  undo calendar register journal
undo-start         only_started      register,journal -       -  undo calendar register journal
calendar           no_calendar       calendar         -       0  calendar list calendar
calendar-older     older_calendar    calendar         -       0  calendar list calendar
picture            as_on_that_day    picture.svg      -       0  picture calendar register picture.svg
picture-older      older_picture     picture.svg      -       0  picture calendar register picture.svg
file               as_on_that_day    series           -       0  file calendar register series
file-older         older_series      series           -       0  file calendar register series
session-file       older_series      series,register  journal 19 session calendar register 2026-11-23 2480.25 --journal journal --file series
session-file-new   as_on_that_day    series,register  journal 19 session calendar register 2026-11-23 2480.25 --journal journal --file series
session-file-cut   cut_line          series,register  journal 19 session calendar register 2026-11-23 2480.25 --journal journal --file series
session-file-alone older_series      series,register  -       19 session calendar register 2026-11-23 2480.25 --file series
session-file-ahead ahead_with_series series,register  -       -  session calendar register 2026-11-23 2480.25 --journal journal --file series
start-file         none_but_calendar series,register  journal 16 start calendar register 2026-11-20 2413.37 --journal journal --file series
start-file-alone   none_but_calendar series,register  -       16 start calendar register 2026-11-20 2413.37 --file series
END
[ "$tried" -gt 0 ] || {
    echo "faults: there is no case $*" >&2
    exit 1
}
