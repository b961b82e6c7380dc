# shellcheck shell=bash disable=SC2154  # the names are those of run.sh and common.sh
# The commands as they work: calendars, a day, a year, the questions, what is taken back.

# Calendars.
cp "$root/calendars/warsaw.txt" .
answers calendar calendar warsaw.txt calendar
python3 "$here/calendar.py" warsaw.txt >"$work/calendar"
rm warsaw.txt
same calendar "$work/calendar"
same calendar "$root/crates/sindhopul/data/warsaw.calendar"
printf '%s\n' '2026-11-11 # one' '' '# none' '+2026-11-14' >list
expect 0 '' calendar list other
python3 "$here/calendar.py" list >"$work/calendar"
same other "$work/calendar"
rm other
for line in 2026-11-14 +2026-11-11 2026-02-29 2100-01-01 monday '2026-11-11 2026-11-12'; do
    printf '%s\n' 2026-11-10 "$line" >list
    trouble 'line 2' calendar list other
done
# One that leaves a month without session up to its third Friday is refused before anything is replaced.
cp calendar kept
for day in $(seq -w 1 18); do
    case $(date -d "2030-01-$day" +%u) in [1-5]) echo "2030-01-$day" ;; esac
done >list
refused 13 '2030-01 has no session up to its third Friday' calendar list calendar
refused 13 '2030-01 has no session up to its third Friday' calendar list other
sed -i '$d' list
expect 0 '' calendar list kept
expect 0 '' check kept
rm list kept
answers check check calendar

# One day's work. docs/FORMAT.md has the first bytes of this register.
answers start start calendar register 2026-11-16 2413.37 --journal journal
[ "$(od -An -tx1 -N8 register)" = " 01 00 58 26 5e 00 00 00" ] || fail "the register's head is not that of FORMAT.md"
[ "$(od -An -tx1 -j136 -N8 register)" = " 42 01 e9 07 58 26 05 00" ] || fail "its first row is not that of FORMAT.md"
answers announce announce calendar register 2026-12 3100 --journal journal
remember
answers preview preview calendar register 2026-11-17 2631.00
unchanged
answers session session calendar register 2026-11-17 2631.00 --journal journal
remember
answers rows rows calendar register
answers rows-month rows calendar register 2026-12
answers show show calendar register
answers name-read name OW20L262400
answers name-write name 2026-12 put 2400
answers why-listed why calendar register OW20L263100
answers why-not why calendar register 2026-12 9900
answers audit audit calendar journal register
unchanged
answers picture picture calendar register picture.svg
python3 -c 'import sys, xml.dom.minidom as x; x.parse(sys.argv[1])' picture.svg || fail "the picture is no XML"
[ "${KEEP:-0}" = 0 ] || cp picture.svg "$here/expected/picture.svg"
same picture.svg "$here/expected/picture.svg"
answers replay replay calendar journal again
same again register
rm again picture.svg

# The close is told with how far it lies from what the ladders stand around, whatever it brings.
while read -r close words; do
    cp register again
    expect 0 '' session calendar again 2026-11-18 "$close"
    grep -q "close $words, the middle of the 2026-11 ladder, 2025 to 3025\$" "$work/out" ||
        fail "a close of $close is not told as '$words' but: $(cat "$work/out")"
done <<'END'
2525.01 2525.01, 0.01 above 2525.00
2524.99 2524.99, 0.01 below 2525.00
2413.37 2413.37, 111.63 below 2525.00
2950.5 2950.50, 425.50 above 2525.00
END
rm again
expect 0 '' start calendar again 2026-11-16 2437.49
grep -q 'close 2437.49, 12.49 above 2425.00, the strike that the ladders stand around$' "$work/out" ||
    fail "the close of a start is not told: $(cat "$work/out")"
rm again

# One outside the nearest month's ladder is asked about, and so is a whole number; with --yes they are taken. A call that is
# refused is not asked about.
for close in 2024.99 3025.01 241.33 9000.00; do
    trouble "$close lies outside the 2026-11 ladder, 2025 to 3025, and would add [0-9]* rows" \
        session calendar register 2026-11-18 "$close" --journal journal
    trouble "$close lies outside the 2026-11 ladder" session calendar register 2026-11-18 "$close"
done
for close in 2025.00 3025.00; do
    cp register again
    expect 0 '' session calendar again 2026-11-18 "$close"
done
trouble '263100: has no point and was read as 2631.00' session calendar register 2026-11-18 263100 --journal journal
# A close that is both is told as it was read: one yes answers both.
trouble 'the close: 250.00 lies outside' session calendar register 2026-11-18 25000 --journal journal
trouble 'the close: 90.00 lies outside' session calendar register 2026-11-18 9000 --journal journal
trouble '241337: has no point and was read as 2413.37' start calendar made 2026-11-16 241337 --journal diary
trouble '24133: has no point and was read as 241.33' start calendar made 2026-11-16 24133
trouble '241337: has no point and was read as 2413.37' start calendar made 2026-11-16 241337
refused 19 'the next session is 2026-11-18' session calendar register 2026-11-19 9000.00
refused 19 'the next session is 2026-11-18' session calendar register 2026-11-19 263100
refused 21 'closes go from 90.00 to 9549.99' session calendar register 2026-11-18 8000
refused 16 'stands at 2026-11-17' start calendar register 2026-11-16 241337
cp register again
cp journal diary
answers session-far session calendar again 2026-11-18 3025.01 --journal diary --yes
has diary 'session 2026-11-18 3025.01 = 0 added 43 removed 0 rows 162'
expect 0 '' session calendar again 2026-11-19 250000 --yes --journal diary
has diary 'session 2026-11-19 2500.00 = 0 added 0 removed 0 rows 162'
expect 0 '' audit calendar diary again
# Before the session after an expiry the nearest month is the next one.
rm again
expect 0 '' start calendar again 2026-11-20 2413.37
trouble '2810.00 lies outside the 2026-12 ladder, 2000 to 2800' session calendar again 2026-11-23 2810.00
expect 0 '' session calendar again 2026-11-23 2010.00
rm again diary

# An announcement tells the rows that it brings: as many as the next session adds for it alone.
rows_of() {
    od -An -tu2 -j4 -N2 "$1"
}
# brings MONTH PRICE: at the next session, with a close around which every tier has the same span, so that it brings none.
brings() {
    local rows
    cp register without
    expect 0 '' announce calendar register "$1" "$2"
    rows=$(sed -n 's/.* introduces it, \([0-9]*\) rows*;.*/\1/p' "$work/out")
    [ -n "$rows" ] || fail "announce $1 $2 tells no rows: $(cat "$work/out")"
    cp register with
    expect 0 '' session calendar without "$next" 2400.00
    expect 0 '' session calendar with "$next" 2400.00
    [ $(($(rows_of with) - $(rows_of without))) -eq "$rows" ] ||
        fail "announce $1 $2 tells $rows rows, and the session adds $(($(rows_of with) - $(rows_of without)))"
    checks=$((checks + 1))
}
cp register kept
# Upwards, downwards, several that wait, one month beside another; on the day before a tier changes, prices of the finer tier
# too.
while read -r day next announcements; do
    rm register
    expect 0 '' start calendar register "$day" 2400.00
    for announcement in $announcements; do
        brings "${announcement%:*}" "${announcement#*:}"
    done
done <<'END'
2026-11-16 2026-11-17 2026-12:3100 2026-12:3150 2026-12:1900 2026-12:1000 2026-12:980 2027-03:3500 2026-11:3000 2026-12:9950
2026-11-20 2026-11-23 2026-12:3125 2026-12:3100 2026-12:4000 2026-12:475 2027-01:3100 2027-01:3500 2027-01:900 2027-09:100
2026-12-18 2026-12-21 2027-03:3150 2027-03:3250 2027-01:3025 2027-01:5 2027-02:2900 2027-06:3000 2027-06:20 2027-03:10
END
rm with without
mv kept register

# A call that is taken back: the last accepted one, and once more the one before it, down to the start. The register is that of
# the calls before, the line stays as a comment, and the right call goes in.
head -n 2 journal >announced
head -n 1 journal >started
rm -f again
expect 0 '' replay calendar announced again
cp register kept
cp journal kept-journal
answers undo-session undo calendar register journal
same register again
has journal '# taken back: session 2026-11-17 2631.00 = 0 added 25 removed 0 rows 119'
head -n 2 journal >rest
same rest announced
expect 0 '' audit calendar journal register
cp register before
cp journal before-journal
expect 0 '' session calendar register 2026-11-17 2613.00 --journal journal
has journal 'session 2026-11-17 2613.00 = 0 added 24 removed 0 rows 118'
expect 0 '' audit calendar journal register
# The right one can be taken back too.
expect 0 '' undo calendar register journal
same register before
has journal '# taken back: session 2026-11-17 2613.00 = 0 added 24 removed 0 rows 118'
expect 0 '' audit calendar journal register
cp before register
cp before-journal journal
rm again
expect 0 '' replay calendar started again
answers undo-announce undo calendar register journal
same register again
expect 0 '' audit calendar journal register
answers undo-start undo calendar register journal
head -c 11264 /dev/zero >again
same register again
sed 's/^/# taken back: /' kept-journal >again
same journal again
trouble 'no call|nothing to take back' undo calendar register journal
expect 0 '' start calendar register 2026-11-16 2413.37 --journal journal
expect 0 '' announce calendar register 2026-12 3100 --journal journal
expect 0 '' session calendar register 2026-11-17 2631.00 --journal journal
same register kept
expect 0 '' audit calendar journal register
# Calls that were refused behind it go with it; comments stay as they are.
cp kept-journal journal
expect 1 'cause 19' session calendar register 2026-11-25 2500.00 --journal journal
printf '# a comment\n\n' >>journal
expect 1 'cause 24' announce calendar register 2026-12 2500 --journal journal
expect 0 '' undo calendar register journal
{
    cat announced
    sed -n '3s/^/# taken back: /p' kept-journal
    printf '# taken back: session 2026-11-25 2500.00 = 19\n# a comment\n\n# taken back: announce 2026-12 2500 = 24\n'
} >again
same journal again
expect 0 '' audit calendar journal register
expect 0 '' session calendar register 2026-11-17 2631.00 --journal journal
same register kept
expect 0 '' audit calendar journal register
# A session by which a month expired brings the month back.
expect 0 '' start calendar expiring 2026-11-20 2413.37 --journal diary
cp expiring before
expect 0 '' session calendar expiring 2026-11-23 2413.37 --journal diary
expect 0 '' undo calendar expiring diary
same expiring before
# Where nothing was accepted there is nothing to take back.
head -c 11264 /dev/zero >again
printf 'start 2026-11-14 2413.37 = 18\n' >diary
trouble 'nothing to take back' undo calendar again diary
cp kept-journal journal
rm again announced started rest kept kept-journal before before-journal expiring diary

# Days, months and closes as numbers are the same calls.
expect 0 '' start calendar again 9816 241337 --yes
expect 0 '' announce calendar again 323 3100
expect 0 '' session calendar again 9817 263100 --yes
same again register
rm again

# The demo's year, call by call: one call is refused, and the register is that of the engine in independent/.
refusals=0
while read -r call first second; do
    status=0
    with_file=()
    case $call in start | session) with_file=(--file new.series) ;; esac
    "$program" "$call" calendar year "$first" "$second" --journal diary "${with_file[@]}" >/dev/null 2>"$work/err" || status=$?
    [ "$status" -le 1 ] || fail "'$call $first $second' ended with $status: $(cat "$work/err")"
    refusals=$((refusals + status))
    # The file that came with the call is the one that is made afterwards.
    "$program" file calendar year again.series >/dev/null
    same again.series new.series
done < <(grep -v '^#' "$root/demo/year.txt")
[ "$refusals" -eq 1 ] || fail "$refusals calls of the demo's year were refused"
echo '87f292e9e9fdffb75ce519cf6148f95282248ed1a8f85806ea30154b25c2d961  year' | sha256sum --check --quiet ||
    fail "the demo's year gave another register"
expect 0 '' picture calendar year year.svg
same year.svg "$root/docs/ladders.svg"
expect 0 '' audit calendar diary year
expect 0 '' replay calendar diary again
same again year
rm again year.svg diary again.series new.series

# What is listed, what is not and what would bring it in, against the same told apart from the program.
cp register full
fill full
expect 0 '' start calendar expiring 2026-11-20 2413.37
expect 0 '' start calendar late 2099-03-17 2413.37
"$here/why.py" "$program" calendar register full expiring late year
