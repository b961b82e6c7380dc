# shellcheck shell=bash disable=SC2154  # the names are those of run.sh and common.sh
# Files as the system has them.
day

# Files that cannot be had, or have not their length.
head -c 11263 register >clipped
cat register calendar >long
trouble 'clipped: the file has 11263 bytes and should have 11264' rows calendar clipped
trouble 'long: ' rows calendar long
trouble 'clipped: the file is longer' rows clipped register
trouble 'clipped: ' session calendar clipped 2026-11-18 2413.37
rm clipped long
mkdir folder
trouble 'missing' rows missing register
trouble 'missing' rows calendar missing
trouble 'missing' session calendar missing 2026-11-18 2413.37
trouble 'missing' replay calendar missing again
trouble 'folder' rows folder register
trouble 'folder' rows calendar folder
trouble 'folder' session calendar register 2026-11-18 2413.37 --journal folder
trouble 'no/such' picture calendar register no/such.svg
rmdir folder

# A lock that was left says how old it is and how it is taken away, whichever file it is of.
cp "$root/calendars/warsaw.txt" list
expect 0 '' picture calendar register picture.svg
expect 0 '' file calendar register series
for call in 'session calendar register 2026-11-18 2413.37' 'announce calendar register 2026-12 3200' 'start calendar register 2026-11-18 2413.37' \
    'replay calendar journal register' 'undo calendar register journal' 'calendar list calendar' 'picture calendar register picture.svg' \
    'file calendar register series' 'session calendar register 2026-11-18 2413.37 --file series'; do
    case $call in calendar*) file=calendar ;; picture*) file=picture.svg ;; *series) file=series ;; *) file=register ;; esac
    touch -d '3 hours ago' "$file.new"
    # shellcheck disable=SC2086  # the words are several
    trouble "$file.new: is there already, for 3 hours 0 minutes" $call
    run_told rm
    [ ! -e "$file.new" ] || fail "what is told does not take $file.new away"
done
while read -r number unit words; do
    touch -d "$number $unit ago" register.new
    messages=/dev/null trouble "register.new: is there already, for $words" session calendar register 2026-11-18 2413.37
done <<'END'
59 minutes 59 minutes
61 minutes 1 hour 1 minute:
25 hours 1 day 1 hour:
963 hours 40 days 3 hours:
END
rm register.new
# A journal is locked while it is written anew.
touch -d '3 hours ago' journal.new
trouble 'journal.new: is there already, for 3 hours 0 minutes' undo calendar register journal
fresh

# Links are followed and stay: by a relative path, by an absolute one, through a folder, one link behind another, and where
# nothing is there yet. The lock is beside the target.
mkdir far far/deep
cp "$root/calendars/warsaw.txt" far/deep/list
mv calendar register journal far/deep
ln -s far/deep/register register
ln -s "$PWD/far/deep/journal" far/journal
ln -s far/journal journal
ln -s far/calendar calendar
ln -s deep/calendar far/calendar
ln -s far/deep folder
ln -s folder/picture.svg picture.svg
ln -s far/series series
ln -s deep/series far/series
ln -s far/deep/list list
# links_stay: all of them lead where they led.
find . -type l -printf '%p %l\n' | sort >"$work/links"
links_stay() {
    find . -type l -printf '%p %l\n' | sort | diff "$work/links" - >&2 || fail "after '$1' a link is gone"
    if [ -n "$(find . -name '*.new')" ]; then fail "'$1' left a new file"; fi
    checks=$((checks + 1))
}
for call in 'calendar list calendar' 'session calendar register 2026-11-18 2500.00 --journal journal --file series' \
    'announce calendar register 2026-12 3200 --journal folder/journal' 'undo calendar register journal' \
    'picture calendar register picture.svg' 'picture calendar folder/register folder/picture.svg' \
    'file calendar register series' 'file calendar folder/register folder/series'; do
    # shellcheck disable=SC2086  # the words are several
    expect 0 '' $call
    links_stay "$call"
done
[ -f far/deep/picture.svg ] || fail "a picture did not go where a link leads"
[ -f far/deep/series ] || fail "a file of series did not go where a link leads"
stands 2026-11-18 far/deep/register
expect 0 '' audit calendar far/deep/journal far/deep/register
rm far/deep/register
expect 0 '' replay calendar journal register
links_stay replay
expect 0 '' audit calendar journal far/deep/register
expect 0 '' undo calendar register journal
links_stay undo
expect 0 '' audit calendar far/deep/journal far/deep/register
rm far/deep/register far/deep/journal far/deep/calendar far/deep/series
expect 0 '' calendar list calendar
expect 0 '' start calendar register 2026-11-16 2413.37 --journal journal --file series
links_stay start
expect 0 '' audit far/deep/calendar far/deep/journal far/deep/register
# The lock.
touch far/deep/register.new
messages=/dev/null trouble 'far/deep/register.new: is there already' session calendar register 2026-11-17 2413.37
messages=/dev/null trouble 'folder/register.new: is there already' session calendar folder/register 2026-11-17 2413.37
rm far/deep/register.new
touch far/deep/series.new
messages=/dev/null trouble 'far/deep/series.new: is there already' session calendar register 2026-11-17 2413.37 --file series
messages=/dev/null trouble 'folder/series.new: is there already' session calendar register 2026-11-17 2413.37 --file folder/series
rm far/deep/series.new
touch register.new series.new
expect 0 '' session calendar register 2026-11-17 2413.37 --journal journal --file series
expect 0 '' undo calendar register journal
# Links that lead nowhere.
ln -s loop loop
ln -s no/such nowhere
for call in 'start calendar @ 2026-11-16 2413.37' 'start calendar made 2026-11-16 2413.37 --journal @' 'session calendar @ 2026-11-17 2413.37' \
    'replay calendar journal @' 'picture calendar register @' 'calendar list @' 'undo calendar register @' 'file calendar register @' \
    'start calendar made 2026-11-16 2413.37 --file @' 'session calendar register 2026-11-17 2413.37 --file @'; do
    # shellcheck disable=SC2086
    trouble 'loop: Too many levels of symbolic links' ${call/@/loop}
    [ "$(wc -l <"$work/err")" -eq 1 ] || fail "more is said of a link to itself: $(cat "$work/err")"
    # shellcheck disable=SC2086
    trouble 'no such|No such' ${call/@/nowhere}
done
fresh

# A file that is replaced keeps its mode, and its group where the system allows; root may give it any.
cp "$root/calendars/warsaw.txt" list
expect 0 '' picture calendar register picture.svg
expect 0 '' file calendar register series
cp journal older
replaced=(calendar register journal picture.svg series)
modes() {
    stat -c '%a %u %g %n' "${replaced[@]}"
}
(
    umask 027
    for mode in 640 600 664; do
        chmod "$mode" "${replaced[@]}"
        if [ "$(id -u)" -eq 0 ]; then chgrp 1 "${replaced[@]}" && chown 2 register; fi
        modes >"$work/modes"
        cp -p register back
        for call in 'calendar list calendar' 'picture calendar register picture.svg' 'file calendar register series' \
            'session calendar register 2026-11-18 2500.00 --journal journal --file series' 'announce calendar register 2026-12 3200 --journal journal' \
            'undo calendar register journal' 'undo calendar register journal' 'replay calendar older register'; do
            # shellcheck disable=SC2086  # the words are several
            expect 0 '' $call
            modes | diff "$work/modes" - >&2 || fail "'$call' changed a mode, an owner or a group"
        done
        mv back register
        expect 0 '' replay calendar journal register --force
        modes | diff "$work/modes" - >&2 || fail "a replay changed a mode, an owner or a group"
    done
)
# A new one has that which the umask leaves.
(
    umask 027
    expect 0 '' start calendar made 2026-11-16 2413.37 --journal diary --file new-series
    expect 0 '' file calendar made newer-series
    [ "$(stat -c %a made diary new-series newer-series | sort -u)" = 640 ] ||
        fail "new files have the modes $(stat -c %a made diary new-series newer-series | tr '\n' ' ')"
)
fresh

# Special files are no destinations. The device is one of the desk, which only root can make: a program that took the
# system's own for a destination would replace it.
cp "$root/calendars/warsaw.txt" list
mkdir folder
mkfifo pipe
ln -s pipe to-pipe
special=(pipe to-pipe)
if mknod device c 1 3 2>"$work/err"; then special+=(device); fi
printf '#!/bin/sh\nexec timeout 10 "%s" "$@"\n' "$program" >"$work/in-time"
chmod +x "$work/in-time"
for call in 'calendar list @' 'picture calendar register @' 'replay calendar journal @' 'start calendar @ 2026-11-16 2413.37' \
    'session calendar @ 2026-11-18 2413.37' 'announce calendar @ 2026-12 3200' 'undo calendar @ journal' 'file calendar register @' \
    'start calendar made 2026-11-16 2413.37 --file @' 'session calendar register 2026-11-18 2413.37 --file @'; do
    for file in "${special[@]}"; do
        # shellcheck disable=SC2086  # the words are several
        messages=/dev/null trouble "${file#to-}: is a device, pipe or socket: no destination" ${call/@/$file}
    done
    # shellcheck disable=SC2086
    trouble 'folder: is a folder: no destination' ${call/@/folder}
done
for call in 'start calendar made 2026-11-16 2413.37 --journal @' 'session calendar register 2026-11-18 2413.37 --journal @' \
    'undo calendar register @'; do
    # shellcheck disable=SC2086
    trouble 'folder: ' ${call/@/folder}
    # A pipe that nobody writes to must not be waited for, with the register locked.
    for file in "${special[@]}"; do
        # shellcheck disable=SC2086
        messages=/dev/null program=$work/in-time trouble "${file#to-}: is a device, pipe or socket" ${call/@/$file}
    done
done
fresh

# A dash is standard input for a list or a journal that is read, standard output for a picture; elsewhere it is refused.
cp "$root/calendars/warsaw.txt" list
expect 0 '' calendar - made <list
same made calendar
expect 0 '' replay calendar - again <journal
same again register
remember
expect 0 '' audit calendar - register <journal
unchanged
answers audit audit calendar - register < <(cat journal)
expect 0 '' picture calendar register picture.svg
remember
expect 0 '' picture calendar register -
same "$work/out" picture.svg
unchanged
trouble 'line 1: 2026-11-14' calendar - calendar <<<2026-11-14
trouble 'line 1: sitting' replay calendar - register <<<sitting
trouble 'zeros' replay calendar - register <again
trouble 'no call' audit calendar - register </dev/null
# A standard input that is closed is no empty list.
trouble 'standard input|-: ' calendar - made <&-
trouble 'standard input|-: ' calendar - calendar <&-
dash='- is a standard stream'
for call in 'calendar list -' 'check -' 'start - made 2026-11-16 2413.37' 'start calendar - 2026-11-16 2413.37' \
    'start calendar made 2026-11-16 2413.37 --journal -' 'session - register 2026-11-18 2413.37' 'session calendar - 2026-11-18 2413.37' \
    'session calendar register 2026-11-18 2413.37 --journal=-' 'announce calendar - 2026-12 3200' 'announce calendar register 2026-12 3200 --journal -' \
    'preview calendar - 2026-11-18 2413.37' 'rows - register' 'rows calendar -' 'show calendar -' 'picture - register made' \
    'picture calendar - made' 'why calendar - OW20L262400' 'replay - journal made' 'replay calendar journal -' 'audit calendar journal -' \
    'audit - journal register' 'undo - register journal' 'undo calendar - journal' 'undo calendar register -' 'file - register made' \
    'file calendar - made' 'file calendar register -' 'start calendar made 2026-11-16 2413.37 --file -' \
    'session calendar register 2026-11-18 2413.37 --file=-' 'session calendar register 2026-11-18 2413.37 --journal journal --file -'; do
    # shellcheck disable=SC2086  # the words are several
    trouble "$dash" $call
done
fresh

# An answer that cannot be written: the message says what did move, and it did.
for how in full closed unread; do
    fresh
    cp "$root/calendars/warsaw.txt" list
    cp calendar kept
    lost "$how" 'the calendar' calendar list made
    same made calendar
    lost "$how" 'the calendar' calendar list calendar
    same calendar kept
    lost "$how" 'register and journal' start calendar again 2026-11-16 2413.37 --journal diary
    stands 2026-11-16 again
    expect 0 '' audit calendar diary again
    lost "$how" 'the register' announce calendar again 2026-12 3100
    echo 'announce 2026-12 3100' >>diary
    expect 0 '' audit calendar diary again
    lost "$how" 'the register' session calendar again 2026-11-17 2631.00
    same again register
    lost "$how" 'register and journal' announce calendar register 2026-12 3200 --journal journal
    has journal 'announce 2026-12 3200 = 0 waiting 1'
    expect 0 '' audit calendar journal register
    lost "$how" 'register, journal and file of series' session calendar register 2026-11-18 2500.00 --journal journal --file series
    stands 2026-11-18 register
    expect 0 '' audit calendar journal register
    cp series kept
    lost "$how" 'the file of series' file calendar register series
    same series kept
    expect 0 '' announce calendar again 2026-12 3200
    lost "$how" 'register and file of series' session calendar again 2026-11-18 2500.00 --file series
    same again register
    same series kept
    lost "$how" 'register and journal' undo calendar register journal
    stands 2026-11-17 register
    has journal '# taken back: session 2026-11-18 2500.00 = 0 added 2 removed 0 rows 121'
    expect 0 '' audit calendar journal register
    rm register
    lost "$how" 'the register' replay calendar journal register
    expect 0 '' audit calendar journal register
    # Nothing moved: one that is equal is not replaced, and questions move nothing.
    remember
    lost "$how" '' replay calendar journal register
    lost "$how" '' rows calendar register
    lost "$how" '' picture calendar register -
    lost "$how" '' audit calendar journal register
    lost "$how" '' series series
    lost "$how" '' preview calendar register 2026-11-18 2500.00
    lost "$how" '' help
    unchanged
    [ "$(find . -type f | wc -l)" -eq 9 ] || fail "files were left: $(ls)"
done
# Closed streams: no message and no answer goes into a file that is open in its place.
fresh
cp "$root/calendars/warsaw.txt" list
printf 'session 2026-1' >>journal
cp -R . "$work/alone"
calls=('session calendar register 2026-11-18 2500.00 --journal journal' 'session calendar register 2026-11-30 2500.00 --journal journal'
    'announce calendar register 2026-12 3200 --journal journal' 'undo calendar register journal' 'calendar list made'
    'replay calendar journal again' 'picture calendar register picture.svg' 'start calendar new 2026-11-14 2413.37 --journal diary'
    'start calendar new 2026-11-16 2413.37 --journal diary --file series' 'session calendar new 2026-11-17 241337'
    'file calendar register series' 'series series' 'session calendar new 2026-11-17 2413.37 --file series')
for call in "${calls[@]}"; do
    # shellcheck disable=SC2086  # the words are several
    (cd "$work/alone" && "$program" $call >/dev/null 2>&1) || :
done
for streams in '2>&-' '>&- 2>&-' '<&- >&- 2>&-'; do
    fresh
    cp "$root/calendars/warsaw.txt" list
    printf 'session 2026-1' >>journal
    for call in "${calls[@]}"; do
        eval "\"\$program\" $call $streams" >/dev/null || :
    done
    diff -r "$work/alone" . >&2 || fail "with $streams a command left other files"
    checks=$((checks + 1))
done
rm -r "$work/alone"
fresh

# What nobody may write is not replaced.
fresh
expect 0 '' picture calendar register picture.svg
cp "$root/calendars/warsaw.txt" list
expect 0 '' file calendar register series
chmod 444 register journal calendar picture.svg series
trouble 'register: is write-protected' session calendar register 2026-11-18 2413.37
trouble 'register: is write-protected' replay calendar journal register --force
trouble 'calendar: is write-protected' calendar list calendar
trouble 'picture.svg: is write-protected' picture calendar register picture.svg
trouble 'series: is write-protected' file calendar register series
chmod 644 register
trouble 'series: is write-protected' session calendar register 2026-11-18 2413.37 --file series
chmod 644 series
trouble 'journal: is write-protected' session calendar register 2026-11-18 2413.37 --journal journal
trouble 'journal: is write-protected' undo calendar register journal
chmod 644 journal calendar picture.svg

# A disk that is full: no file may grow past 8 KiB, that of the messages neither, and the signal for that is ignored.
remember
(
    trap '' XFSZ
    ulimit -f 8
    messages=/dev/null expect 2 '.' session calendar register 2026-11-18 2413.37 --journal journal
)
unchanged
if "$program" rows calendar register >/dev/full 2>"$work/err"; then fail "a full disk took the answer"; fi
grep -q . "$work/err" || fail "nothing is said of an answer that was lost"

# Many at once: one does the work, the others say why not.
cp -R . "$work/alone"
(cd "$work/alone" && "$program" session calendar register 2026-11-18 2413.37 --journal journal >/dev/null)
for run in $(seq 16); do
    (
        status=0
        "$program" session calendar register 2026-11-18 2413.37 --journal journal >/dev/null 2>"$work/$run" || status=$?
        echo "$status" >>"$work/$run"
    ) &
done
wait
done=0
for run in $(seq 16); do
    case $(tail -n 1 "$work/$run") in
    0) done=$((done + 1)) ;;
    1) grep -Eq '(^|[^0-9])19([^0-9]|$)' "$work/$run" || fail "of many at once, one said: $(cat "$work/$run")" ;;
    2) grep -q 'register\.new' "$work/$run" || fail "of many at once, one said: $(cat "$work/$run")" ;;
    *) fail "of many at once, one ended with $(tail -n 1 "$work/$run")" ;;
    esac
done
[ "$done" -eq 1 ] || fail "of many at once, $done did the work"
# Those that came late are in the journal too.
grep -v ' = 19$' journal >"$work/kept-journal"
mv "$work/kept-journal" journal
diff -r "$work/alone" . >&2 || fail "many at once left other files than one alone"

# A name that is no UTF-8 is refused, for a file that is read and for one that is written, and where a link leads to one.
latin=$(printf 'caf\351')
messages=/dev/null trouble 'Invalid or incomplete multibyte or wide character' check "$latin"
messages=/dev/null trouble '^nothing was changed: ' calendar "$root/calendars/warsaw.txt" "$latin"
ln -s "$latin" link
messages=/dev/null trouble '^nothing was changed: link: Invalid or incomplete' calendar "$root/calendars/warsaw.txt" link
