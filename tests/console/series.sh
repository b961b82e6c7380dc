# shellcheck shell=bash disable=SC2154  # the names are those of run.sh and common.sh
# Files of series: written with a call and by itself, read, and every way in which bytes are none.
day

# written FILE REGISTER: the file is that of the register, told apart from the program, and so is what is read of it.
written() {
    "$here/series.py" bytes "$2" | cmp - "$1" >&2 || fail "$1 is not the file of $2"
    "$here/series.py" words "$1" >"$work/words"
    remember
    expect 0 '' series "$1"
    unchanged
    diff "$work/words" "$work/out" >&2 || fail "what is said of $1 is not what it has"
    expect 0 '' series - <"$1"
    diff "$work/words" "$work/out" >&2 || fail "what is said of $1 from standard input is not what it has"
    checks=$((checks + 2))
}

# A start and its file; docs/FORMAT.md has how it begins.
answers start-file start calendar made 2026-11-16 2413.37 --journal diary --file series
[ "$(od -An -tx1 -N20 series)" = " 01 02 00 58 26 02 0c 00 4f 57 32 30 41 32 37 32
 30 30 30 05" ] || fail "the file does not begin as it must: $(od -An -tx1 -N20 series)"
[ "$(wc -c <series)" -eq 2825 ] || fail "the file of a start with 94 rows has $(wc -c <series) bytes"
written series made
# The same by itself, over it and anew.
cp series by-start
for file in series again; do
    remember
    answers "file-$file" file calendar made "$file"
    same "$file" by-start
done
# An announcement lists nothing. The file of a session has the announced rows beside the others, and the day's alone.
expect 0 '' announce calendar made 2026-12 3100 --journal diary
expect 0 '' file calendar made again
same again by-start
answers session-file session calendar made 2026-11-17 2631.00 --journal diary --file series
same made register
written series made
answers series series series
expect 0 '' file calendar made again
same again series
# One row, and none.
expect 0 '' session calendar made 2026-11-18 2638.00 --journal diary --file series
answers session-file-none session calendar made 2026-11-19 2500.00 --journal diary --file series
[ "$(od -An -tx1 series)" = " 01 02 00 5b 26" ] || fail "a day without new series has another file"
written series made
answers series-none series series
answers file-none file calendar made series
same series <(printf '\1\2\0[&')
expect 0 '' audit calendar diary made
# An expiry: rows go, and all letters of a year's end.
expect 0 '' start calendar expiring 2026-12-18 2413.37 --file series
written series expiring
expect 0 '' session calendar expiring 2026-12-21 4090.89 --yes --file series
written series expiring
# The longest: as many rows as a register holds are not to be had in a day, but nearly all can be new.
expect 0 '' start calendar wide 2026-11-16 90.00 --file series
written series wide
expect 0 '' session calendar wide 2026-11-17 9549.99 --yes --file series
written series wide

# A call that is taken back says what becomes of its file, and the file made again is that of the session before.
cp diary kept
expect 0 '' undo calendar made diary
expect 0 '' undo calendar made diary
grep -q 'a file of series written for it is no longer right, make it anew: sindhopul file CALENDAR REGISTER FILE$' "$work/out" ||
    fail "undo does not speak of a file: $(cat "$work/out")"
same made register
expect 0 '' file calendar made series
written series made
same series again
expect 0 '' announce calendar made 2026-12 3900 --journal diary
expect 0 '' undo calendar made diary
if grep -q 'file of series' "$work/out"; then fail "undo of an announcement speaks of a file"; fi
fresh

# A call that is refused, asked about, or not kept leaves both as they were, a missing file too, and no lock.
expect 0 '' file calendar register series
for file in series made; do
    refused 19 'the next session is 2026-11-18' session calendar register 2026-11-19 2413.37 --file "$file"
    trouble 'lies outside the 2026-11 ladder' session calendar register 2026-11-18 4000.00 --file "$file"
    trouble 'has no point' session calendar register 2026-11-18 263100 --file "$file" --journal journal
    trouble 'there is no such journal' session calendar register 2026-11-18 2413.37 --file "$file" --journal jurnal
    trouble 'there is no such register' session calendar missing 2026-11-18 2413.37 --file "$file"
    trouble 'is no day' session calendar register 18.11.2026 2413.37 --file "$file"
done
cp series kept
cp register before
expect 1 'cause 19' session calendar register 2026-11-19 2413.37 --file series --journal journal
has journal 'session 2026-11-19 2413.37 = 19'
same series kept
same register before
fresh

# A session that was made without it: the refusal says how the file is made. It may stand in another folder than the register.
expect 0 '' session calendar register 2026-11-18 2700.00
refused 19 'sindhopul file CALENDAR REGISTER FILE writes the file of its new series$' \
    session calendar register 2026-11-18 2700.00 --file series
mkdir gateway
expect 0 '' file calendar register gateway/series
written gateway/series register
expect 0 '' session calendar register 2026-11-19 2800.00 --file gateway/series
written gateway/series register
[ -z "$(find . -name '*.new')" ] || fail "a lock is left"
fresh

# A run that was cut off between the two renames leaves the new file, the old register and one lock; before them two locks. What is
# told takes all of them away at once, and the same command completes the work.
expect 0 '' file calendar register series
cp series before-series
cp register before
cp journal before-journal
expect 0 '' session calendar register 2026-11-18 2700.00 --journal journal --file series
cp series after-series
cp register after
cp journal after-journal
for is_kept in no yes; do
    cp before register
    cp before-series series
    if [ "$is_kept" = yes ]; then cp after-journal journal; else cp before-journal journal; fi
    touch -d '3 hours ago' register.new series.new
    trouble 'register.new: is there already, for 3 hours 0 minutes' session calendar register 2026-11-18 2700.00 --journal journal --file series
    grep -q '^series.new: is there already, for 3 hours 0 minutes' "$work/err" || fail "only one lock is told: $(cat "$work/err")"
    run_told rm
    if [ "$is_kept" = yes ]; then said='has this call already'; else said=''; fi
    expect 0 "$said" session calendar register 2026-11-18 2700.00 --journal journal --file series
    same register after
    same series after-series
    same journal after-journal
done
cp before register
touch -d '3 hours ago' register.new
trouble 'register.new: is there already, for 3 hours 0 minutes' session calendar register 2026-11-18 2700.00 --journal journal --file series
if grep -q 'series.new' "$work/err"; then fail "a lock is told that is not there"; fi
run_told rm
expect 0 'has this call already' session calendar register 2026-11-18 2700.00 --journal journal --file series
same register after
same series after-series
# One of the file alone, as a run of file or another register's leaves it: the register's is given back.
touch -d '3 hours ago' series.new
trouble '^nothing was changed: series.new: is there already, for 3 hours 0 minutes' session calendar register 2026-11-19 2700.00 --file series
trouble '^nothing was changed: series.new: is there already, for 3 hours 0 minutes' file calendar register series
run_told rm
# A journal that is ahead by a call which lists rows: the command that completes it has the file, or says that it may have had one.
cp before register
cp before-series series
cp after-journal journal
trouble 'complete it: sindhopul session calendar register 2026-11-18 2700.00 --journal journal --file series$' \
    session calendar register 2026-11-18 2700.01 --journal journal --file series
trouble 'complete it, with --file if it had one: sindhopul session calendar register 2026-11-18 2700.00 --journal journal$' \
    announce calendar register 2026-12 3900 --journal journal
expect 1 'complete it, with --file if it had one: sindhopul session' audit calendar journal register
cp series "it's"
trouble 'ahead of the register' session calendar register 2026-11-18 2700.01 --journal journal --file "it's"
run_told 'sindhopul session'
same register after
same "it's" after-series
# One ahead by an announcement needs none.
cp register before
expect 0 '' announce calendar register 2026-12 3900 --journal journal
cp before register
trouble 'complete it: sindhopul announce calendar register 2026-12 3900 --journal journal$' \
    session calendar register 2026-11-19 2700.00 --journal journal --file series
fresh

# The file cannot be written: the register stays too, and the other way round.
expect 0 '' file calendar register series
mkdir shut
cp series shut/series
if [ "$(id -u)" -ne 0 ]; then
    chmod 555 shut
    messages=/dev/null trouble 'shut/series.new: Permission denied' session calendar register 2026-11-18 2700.00 --journal journal --file shut/series
    chmod 755 shut
fi
trouble 'no/such/series' session calendar register 2026-11-18 2700.00 --journal journal --file no/such/series
remember
(
    trap '' XFSZ
    ulimit -f 8
    messages=/dev/null expect 2 'register.new: File too large' session calendar register 2026-11-18 2700.00 --file series
)
unchanged
expect 0 '' start calendar wide 2026-11-16 90.00
cp wide narrow
expect 0 '' session calendar wide 2026-11-17 9549.99 --yes
remember
(
    trap '' XFSZ
    ulimit -f 16
    messages=/dev/null expect 2 'made.new: File too large' session calendar narrow 2026-11-17 9549.99 --yes --file made
    messages=/dev/null expect 2 'made.new: File too large' file calendar wide made
)
unchanged

# Two registers that write one file, many at once: one at a time does the work.
for run in $(seq 12); do
    cp "$work/day/register" "register-$run"
    (
        status=0
        "$program" session calendar "register-$run" 2026-11-18 27"$((run + 10))".00 --file series >/dev/null 2>"$work/$run" || status=$?
        echo "$status" >>"$work/$run"
    ) &
done
wait
for run in $(seq 12); do
    case $(tail -n 1 "$work/$run") in
    0) ;;
    2) grep -q 'series\.new: is there already' "$work/$run" || fail "of many at once, one said: $(cat "$work/$run")" ;;
    *) fail "of many at once, one ended with $(tail -n 1 "$work/$run")" ;;
    esac
    if [ "$(tail -n 1 "$work/$run")" -eq 0 ]; then stands 2026-11-18 "register-$run"; else same "register-$run" "$work/day/register"; fi
done
[ -z "$(find . -name '*.new')" ] || fail "many at once left a lock"
expect 0 '' series series
fresh

# What is read: every fault by its place, with what stands there and what belongs there.
one='\2\14\0OW20L262400\5'
while read -r place bytes pattern; do
    printf '%b' "${bytes//@/$one}" >bad
    refused 31 "place $place, counted from 0" series bad
    grep -Eq "$pattern" "$work/err" || fail "a file with a fault at $place did not say '$pattern' but: $(cat "$work/err")"
    grep -q 'sindhopul file CALENDAR REGISTER FILE$' "$work/err" || fail "the way on is not told: $(cat "$work/err")"
done <<'END'
0 \2\2\0\1\1 the day, its tag: byte 2 where byte 1 belongs
0 %PDF the day, its tag: byte 37 \(%\) where byte 1 belongs
1 \1\3\0\1\1 the day, the low byte of its length: byte 3 where byte 2 belongs
2 \1\2\1\1\1 the day, the high byte of its length: byte 1 where byte 0 belongs
2 \1\2 the high byte of its length: the bytes end where byte 0 belongs
3 \1\2\0 the day, its two bytes: the bytes end where they belong
4 \1\2\0\0377 the day, its two bytes: the bytes end where they belong
3 \1\2\0\0377\0377 the day, 65535, is past 36524, which is 2099-12-31, the last one
3 \1\2\0\0255\0216@ the day, 36525, is past 36524
5 \1\2\0\1\1\3\14\0OW20L262400\5 series 1, its tag: byte 3 where byte 2 belongs
6 \1\2\0\1\1\2\15\0OW20L262400\5 series 1, the low byte of its length: byte 13 where byte 12 belongs
7 \1\2\0\1\1\2\14\1OW20L262400\5 series 1, the high byte of its length: byte 1 where byte 0 belongs
8 \1\2\0\1\1\2\14\0QW20L262400\5 series 1, character 1 of its name: byte 81 \(Q\) where O belongs
9 \1\2\0\1\1\2\14\0OX series 1, character 2 of its name: byte 88 \(X\) where W belongs
10 \1\2\0\1\1\2\14\0OW10L262400\5 character 3 of its name: byte 49 \(1\) where 2 belongs
11 \1\2\0\1\1\2\14\0OW21L262400\5 character 4 of its name: byte 49 \(1\) where 0 belongs
12 \1\2\0\1\1\2\14\0OW20Y262400\5 character 5 of its name: byte 89 \(Y\) where a letter belongs: A to L .* M to X
13 \1\2\0\1\1\2\14\0OW20L:62400\5 character 6 of its name: byte 58 \(:\) where a digit of the year belongs
14 \1\2\0\1\1\2\14\0OW20L2/2400\5 character 7 of its name: byte 47 \(/\) where a digit of the year belongs
15 \1\2\0\1\1\2\14\0OW20L26x400\5 character 8 of its name: byte 120 \(x\) where a digit of the price belongs
18 \1\2\0\1\1\2\14\0OW20L26240\0\5 character 11 of its name: byte 0 where a digit of the price belongs
19 \1\2\0\1\1\2\14\0OW20L262400\6 series 1, its origin: byte 6 where a byte from 1 to 5 belongs
19 \1\2\0\1\1\2\14\0OW20L262400\0 series 1, its origin: byte 0 where a byte from 1 to 5 belongs
19 \1\2\0\1\1\2\14\0OW20L262400 series 1, its origin: the bytes end where a byte from 1 to 5 belongs
19 \1\2\0\1\1\2\14\0OW20L262410\11 its origin: byte 9 where
8 \1\2\0\1\1\2\14\0OW20L262410\5 series 1, OW20L262410: its price, 2410, is not on the grid of tier N
8 \1\2\0\1\1\2\14\0OW20L260000\5 its price, 0, is not on the grid
8 \1\2\0\1\1\2\14\0OW20L269999\5 its price, 9999, is not on the grid
23 \1\2\0\1\1@@ series 2, OW20L262400 is not above OW20L262400, the name before it
23 \1\2\0\1\1@\2\14\0OW20L262375\5 series 2, OW20L262375 is not above OW20L262400, the name before it
23 \1\2\0\1\1@\2\14\0OW20A272400\5 series 2, OW20A272400 is not above OW20L262400
20 \1\2\0\1\1@\1\2\0\1\1 series 2, its tag: byte 1 where byte 2 belongs
21 \1\2\0\1\1@\2 series 2, the low byte of its length: the bytes end where byte 12 belongs
27 \1\2\0\1\1@\2\14\0OW20 series 2, character 5 of its name: the bytes end where a letter belongs
END
: >bad
refused 31 'place 0, counted from 0' series bad
refused 31 'place 0, counted from 0' series - </dev/null
# Against the same told apart: each byte changed, the file cut at each length, series exchanged and repeated.
expect 0 '' session calendar register 2026-11-18 2700.00 --file series
head -c 80 series >some
"$here/series.py" faults "$program" some

# A file that names every series is told whole; a reader that goes early is no crash; one byte more than it has is told.
"$here/series.py" many 1216800 >long
"$here/series.py" words long >"$work/words"
expect 0 '' series long
cmp "$work/words" "$work/out" >&2 || fail "not all of a long file is told"
{
    cat long
    printf '\2'
} >longer
trouble 'longer: the file is longer than it may be: it is read up to 18252005 bytes' series longer
trouble 'standard input: the file is longer than it may be' series - <longer
{ "$program" series long 2>"$work/err" || echo "$?" >"$work/status"; } | head -n 1 >"$work/out"
[ "$(cat "$work/out" "$work/status")" = '2026-11-16: 1216800 series
2' ] || fail "to a reader that went early the program said $(cat "$work/out") and ended with $(cat "$work/status")"
grep -q 'could not be written: Broken pipe' "$work/err" || fail "a reader that went early is told as: $(cat "$work/err")"
lost full '' series series
lost closed '' series series
lost unread '' series long
trouble 'missing: there is no such file' series missing
