# shellcheck shell=bash disable=SC2154  # the names are those of run.sh and common.sh
# Journals: what a person or a crash may have done to one, and the register beside it.
day

# A register that is not what its journal gives.
cp register other
poke other 142 3
expect 1 'row 1:' audit calendar journal other
# Byte by byte: the numbers of the head, a row's origin, and bytes without use; each becomes 9.
while read -r place pattern; do
    cp register other
    poke other "$place" 11
    expect 1 "$pattern\$" audit calendar journal other
done <<'END'
0 status, 0 empty, 1 running: the journal gives 1, the register has 9
1 announcements waiting: the journal gives 0, the register has 9
2 day: the journal gives 2026-11-17, the register has 2026-08-29
4 rows: the journal gives 119, the register has 9
6 byte 6: the journal gives 0, the register has 9
8 byte 8: the journal gives 0, the register has 9
142 the register has  2026-11 2025, first day 2026-11-16, origin 9
143 byte 143: the journal gives 0, the register has 9
11263 byte 11263: the journal gives 0, the register has 9
END
head -n 2 journal >changed
rm other
expect 0 '' replay calendar changed other
poke other 10 11
expect 1 'the register has  2026-12 3081$' audit calendar changed other
expect 0 '' start calendar again 2026-11-17 2413.37
expect 1 'rows: the journal gives 119, the register has 94' audit calendar journal again

# A journal that tells something else than the calls answer: the number, or a value beside it; in a line that was changed, or
# in one behind a line that was changed or lost. The line is shown with the cause in words and what that means.
while read -r line change pattern; do
    sed "$change" journal >changed
    remember
    for call in 'audit calendar changed register' 'replay calendar changed made' 'replay calendar changed register --force'; do
        # shellcheck disable=SC2086  # the words are several
        expect 1 "line $line: $(sed -n "$line s/ = .*//p" changed)" $call
        grep -q "$pattern" "$work/err" || fail "'$call' did not say '$pattern' but: $(cat "$work/err")"
        grep -q 'that means: ' "$work/err" || fail "'$call' did not say what that means but: $(cat "$work/err")"
    done
    unchanged
    trouble "line $line: " session calendar register 2026-11-18 2413.37 --journal changed
    trouble "line $line: " undo calendar register changed
done <<'END'
1 1s/=.*/=_16/;1s/_/\x20/ it tells 16: the register to start is running
1 1s/added\s94/added\x2093/ its call gives 0 added 94 removed 0 rows 94: accepted
1 1s/removed\s0/removed\x201/ its call gives 0 added 94 removed 0 rows 94: accepted
1 1s/rows\s94/rows\x2095/ its call gives 0 added 94 removed 0 rows 94: accepted
1 1s/$/\x20more/ its call gives 0 added 94 removed 0 rows 94: accepted
2 2s/waiting\s1/waiting\x202/ its call gives 0 waiting 1: accepted
2 2s/3100/3110/ its call gives 23: the price to announce is not on the grid
3 3s/2631/2613/ its call gives 0 added 24 removed 0 rows 118: accepted
3 1s/2413/2513/ its call gives 0 added 14 removed 0 rows 108: accepted
2 2d its call gives 0 added 24 removed 0 rows 118: accepted
3 3s/=.*/=_99/;3s/_/\x20/ it tells 99: [a-z]
END
# The calls of another calendar.
grep -v '^2026' "$root/calendars/warsaw.txt" >list
expect 0 '' calendar list without
{ head -n 1 journal && echo 'session 2026-11-17 2631.00 = 19'; } >changed
expect 1 'line 2: ' audit without changed register
sed 's/^session/sitting/' journal >changed
trouble 'line 3: sitting' replay calendar changed made
# What a line leaves out is not compared.
sed '1s/ rows.*//; 2s/ waiting.*//; 3s/ =.*//' journal >changed
expect 0 '' audit calendar changed register
fresh

# Register and journal belong together, whatever stands behind the last accepted call: a refused call, a comment, an empty line.
cp journal in-step
expect 0 '' session calendar register 2026-11-18 2500.00
cp register a-session-on
for line in 'session 2026-11-25 2500.00 = 19' 'announce 2026-12 2400 = 24' '# a comment' '' ' ' '  # another'; do
    cp in-step journal
    echo "$line" >>journal
    cp a-session-on register
    trouble 'behind the register' session calendar register 2026-11-19 2501.00 --journal journal
    trouble 'behind the register' announce calendar register 2026-12 3200 --journal journal
    trouble 'behind the register' session calendar register 2026-11-30 2501.00 --journal journal
    trouble 'behind the register' undo calendar register journal
    # A start in place of a lost register, and of an empty one.
    rm register
    trouble 'the register is empty$' start calendar register 2026-11-18 2501.00 --journal journal
    head -c 11264 /dev/zero >register
    trouble 'the register is empty$' start calendar register 2026-11-18 2501.00 --journal journal
    run_told 'sindhopul replay'
    # In step, the next call is taken.
    cp register back
    expect 0 '' session calendar register 2026-11-18 2500.00 --journal journal
    same register a-session-on
    expect 0 '' audit calendar journal register
    cp back register
done
# A line that is none of a journal, at its end or amid its calls.
for line in 'sesion 2026-11-18 2500.00' 'session 2026-11-18' 'session 2026-11-18 2500.00 0' '= 0'; do
    { cat in-step && echo "$line"; } >journal
    trouble "line 4: $line" session calendar register 2026-11-18 2500.00 --journal journal
    trouble "line 4: $line" announce calendar register 2026-12 3200 --journal journal
    trouble "line 4: $line" undo calendar register journal
    rm register
    trouble "line 4: $line" start calendar register 2026-11-18 2500.00 --journal journal
    cp back register
    { head -n 1 in-step && echo "$line" && tail -n 2 in-step; } >journal
    trouble "line 2: $line" session calendar register 2026-11-18 2500.00 --journal journal
done
# Not its last call alone: an earlier one that the register has not.
sed '2s/3100.*/3200/; s/ =.*//' in-step >journal
trouble "not this register's journal" session calendar register 2026-11-18 2500.00 --journal journal
fresh

# A mistyped name makes no journal, only a start does; what begins with no start is none.
cp journal in-step
trouble 'only start makes one' session calendar register 2026-11-18 2500.00 --journal jurnal
trouble 'there is no such journal' session calendar register 2026-11-30 2500.00 --journal jurnal
trouble 'there is no such journal' announce calendar register 2026-12 3200 --journal jurnal
trouble 'there is no such journal' announce calendar register 2026-12 2400 --journal=./jurnal
sed 1d in-step >startless
trouble 'no start' session calendar register 2026-11-18 2500.00 --journal startless
trouble 'no start' announce calendar register 2026-12 3200 --journal startless
trouble 'no start' undo calendar register startless
# Any text file is taken as none, and keeps its lines, the last one too.
for form in 'Dear all,\nthe cake is in the kitchen\n' 'Dear all,\nthe cake is in the kitchen' 'the cake' 'started\nat nine' '2026-11-11\n'; do
    # shellcheck disable=SC2059  # the form is one of the above
    printf "$form" >letter
    trouble 'letter: ' session calendar register 2026-11-18 2500.00 --journal letter
    trouble 'letter: ' start calendar made 2026-11-18 2500.00 --journal letter
    trouble 'letter: ' announce calendar register 2026-12 3200 --journal letter
    trouble 'letter: ' undo calendar register letter
done
# A start takes a journal that has no call yet, and keeps what it has.
printf '# of the desk\n\n' >notes
expect 0 '' start calendar made 2026-11-18 2500.00 --journal notes
[ "$(wc -l <notes)" -eq 3 ] || fail "a start did not keep the comments before it"
expect 0 '' audit calendar notes made

# Only what begins like a call was cut off. What was is left out, and taken away by the next call.
for piece in s ses session 'session 2026-11-18 24' an announce 'announce 2026-1' 'start 20'; do
    fresh
    printf '%s' "$piece" >>journal
    remember
    expect 0 'cut off' audit calendar journal register
    unchanged
    expect 0 'cut off' replay calendar journal again
    same again register
    expect 0 'cut off' session calendar register 2026-11-18 2413.37 --journal journal
    [ "$(wc -l <journal)" -eq 4 ] || fail "a line that was cut off was not replaced"
    has journal 'session 2026-11-18 2413.37 = 0 added 0 removed 0 rows 119'
done
for piece in sessions 'sessions are' started 'call me' '# a comment' 'x' '2026-11-18' 'session2026-11-18'; do
    fresh
    printf '%s' "$piece" >>journal
    trouble 'last line' session calendar register 2026-11-18 2413.37 --journal journal
    trouble 'last line' announce calendar register 2026-12 3200 --journal journal
    trouble 'last line' undo calendar register journal
    trouble 'last line' replay calendar journal made
    trouble 'last line' audit calendar journal register
    has journal "$piece"
done
# Where a call was cut off when it was taken back, what is left of the line goes.
fresh
printf 'session 2026-1' >>journal
expect 0 '' undo calendar register journal
has journal '# taken back: session 2026-11-17 2631.00 = 0 added 25 removed 0 rows 119'

# Where the journal is behind, what it lacks is told with commands that append it. By announcements:
fresh
expect 0 '' announce calendar register 2026-12 3200
expect 0 '' announce calendar register 2027-03 3500
for call in 'session calendar register 2026-11-18 2500.00 --journal journal' 'announce calendar register 2027-03 3700 --journal journal' \
    'undo calendar register journal'; do
    # shellcheck disable=SC2086  # the words are several
    trouble 'behind the register by 2 announcements' $call
done
expect 1 'behind the register by 2 announcements' audit calendar journal register
run_told echo
has journal 'announce 2027-03 3500'
expect 0 '' audit calendar journal register
expect 0 '' announce calendar register 2027-03 3700 --journal journal
expect 0 '' audit calendar journal register
# By sessions, whose closes only the person knows:
expect 0 '' session calendar register 2026-11-18 2500.00
expect 0 '' session calendar register 2026-11-19 2600.00
for close in 2500.00 2600.00; do
    trouble 'behind the register' undo calendar register journal
    trouble 'behind the register' session calendar register 2026-11-20 2500.00 --journal journal
    [ "$(told echo | wc -l)" -eq 1 ] || fail "not one line to append is told: $(cat "$work/err")"
    run_told echo "s/CLOSE/$close/"
done
expect 0 '' session calendar register 2026-11-20 2500.00 --journal journal
expect 0 '' audit calendar journal register

# So where a line was cut off behind what it has: that goes first, and is not mixed with what is appended.
fresh
expect 0 '' announce calendar register 2026-12 3200
printf 'session 2026-1' >>journal
trouble 'its last line was cut off' announce calendar register 2027-03 3500 --journal journal
run_told 'sed -i'
trouble 'behind the register' announce calendar register 2027-03 3500 --journal journal
run_told echo
expect 0 '' announce calendar register 2027-03 3500 --journal journal
expect 0 '' audit calendar journal register
# A last line with its answer lacks its line feed alone: it counts, and nothing is lost.
fresh
truncate -s -1 journal
expect 0 '' audit calendar journal register
rm register
expect 0 '' replay calendar journal register
cp journal without-feed
expect 0 '' session calendar register 2026-11-18 2500.00 --journal journal
cmp <(cat without-feed && echo) <(head -n -1 journal) || fail "a line without line feed was changed"
expect 0 '' audit calendar journal register
# Its call may also not be carried out yet.
fresh
expect 0 '' announce calendar register 2026-12 3200
cp register back
cp "$work/day/register" register
printf 'announce 2026-12 3200 = 0 waiting 1' >>journal
trouble 'ahead of the register' announce calendar register 2027-03 3500 --journal journal
expect 0 'has this call already' announce calendar register 2026-12 3200 --journal journal
same register back
expect 0 '' undo calendar register journal
same register "$work/day/register"
# Lines that lost all their line feeds are no line that was cut off.
fresh
rm register
for instead in '\r' ' '; do
    tr '\n' "$instead" <"$work/day/journal" >journal
    trouble 'journal: ' start calendar register 2026-11-16 2413.37 --journal journal
done
# A journal from standard input has no name here.
fresh
expect 0 '' announce calendar register 2026-12 3200
expect 1 '>> JOURNAL$' audit calendar - register <journal
fresh

# Where it is ahead, the command that completes it, and the one that takes it back. A close that was asked about once is not
# asked about again.
for call in 'session calendar register 2026-11-18 2500.00' 'session calendar register 2026-11-18 4000.00 --yes' \
    'announce calendar register 2026-12 3200'; do
    for way in "${call%% *}" undo; do
        fresh
        cp register before
        # shellcheck disable=SC2086  # the words are several
        expect 0 '' $call --journal journal
        cp register after
        cp before register
        for other in 'session calendar register 2026-11-18 2500.01' 'session calendar register 2026-11-30 2500.01' \
            'announce calendar register 2026-12 3300'; do
            # shellcheck disable=SC2086
            trouble 'journal: it is ahead of the register' $other --journal journal
        done
        run_told "sindhopul $way"
        if [ "$way" = undo ]; then same register before; else same register after; fi
        expect 0 '' audit calendar journal register
        expect 0 '' announce calendar register 2027-03 4500 --journal journal
        expect 0 '' audit calendar journal register
    done
done
# So is a start, by which the register was to be made.
fresh
rm register
head -n 1 journal >started
mv started journal
trouble 'journal: it is ahead of the register' start calendar register 2026-11-16 2413.38 --journal journal
run_told 'sindhopul start'
expect 0 '' audit calendar journal register
rm register
# The same call again completes it too.
expect 0 'has this call already' start calendar register 2026-11-16 2413.37 --journal journal
expect 0 '' audit calendar journal register
# Ahead by more than one call, it gives the register.
fresh
cp register before
expect 0 '' session calendar register 2026-11-18 2500.00 --journal journal
expect 0 '' session calendar register 2026-11-19 2600.00 --journal journal
cp register after
cp before register
trouble 'journal: it is ahead of the register' session calendar register 2026-11-18 2500.00 --journal journal
run_told 'sindhopul replay'
same register after

# Where neither explains it, no command leads back to the same message.
fresh
sed '2d; 3s/ = .*//' journal >other
expect 1 'the register is not what its journal gives' audit calendar other register
if [ -n "$(told 'sindhopul audit')" ]; then fail "audit tells to run audit: $(cat "$work/err")"; fi
fresh
expect 0 '' session calendar register 2026-11-18 2500.00 --journal journal
expect 0 '' session calendar register 2026-11-19 2600.00 --journal journal

# Names with blanks and quotes are told so that a shell reads them.
mkdir "the desk's"
cp calendar "the desk's/a calendar"
cp register "the desk's/it's"
cp journal "the desk's/-\"journal\" of \$HOME *"
cd "the desk's" || exit
# shellcheck disable=SC2016  # the dollar is part of the name
odd='-"journal" of $HOME *'
expect 0 '' announce 'a calendar' "it's" 2026-12 3300
trouble 'behind the register' session 'a calendar' "it's" 2026-11-20 2600.00 --journal="$odd"
run_told echo
cp "it's" before
expect 0 '' session 'a calendar' "it's" 2026-11-20 2600.00 --journal "./$odd"
mv before "it's"
trouble 'ahead of the register' session 'a calendar' "it's" 2026-11-20 2610.00 --journal="$odd"
run_told 'sindhopul undo'
expect 0 '' audit 'a calendar' "./$odd" "it's"
expect 0 '' session 'a calendar' "it's" 2026-11-20 2600.00 --journal="$odd"
expect 0 '' audit 'a calendar' "./$odd" "it's"
touch "it's.new"
# shellcheck disable=SC2016
messages=/dev/null trouble 'rm ' session 'a calendar' "it's" 2026-11-23 2600.00 --journal="$odd"
run_told rm
expect 0 '' session 'a calendar' "it's" 2026-11-23 2600.00 --journal="$odd"
cd "$work/desk" || exit
fresh

# A calendar or a register that cannot be used says nothing of the call: it is not kept.
cp calendar bad
poke bad 4565 377
refused 12 'the calendar' session bad register 2026-11-18 2413.37 --journal journal
refused 12 'the calendar' undo bad register journal
head -c 4566 /dev/zero >bad
refused 13 '2000-01' announce bad register 2026-12 3200 --journal journal
refused 13 '2000-01' start bad made 2026-11-16 2413.37 --journal diary
cp register damaged
poke damaged 7 1
refused 15 'damaged' session calendar damaged 2026-11-18 2413.37 --journal journal
refused 15 'damaged' announce calendar damaged 2026-12 3200 --journal journal
refused 15 'damaged' start calendar damaged 2026-11-18 2413.37 --journal journal
# A call that is refused by another cause is.
expect 1 'cause 19' session calendar register 2026-11-30 2413.37 --journal journal
has journal 'session 2026-11-30 2413.37 = 19'
expect 1 'cause 24' announce calendar register 2026-12 2400 --journal journal
has journal 'announce 2026-12 2400 = 24'

# A journal written by hand.
printf '# by hand\n\nstart 9816 241337\n  announce 2026-12 3100 # called in\n' >changed
expect 0 '' replay calendar changed again
expect 0 '' session calendar again 2026-11-17 2631.00 --journal changed
same again register

# As many calls as fit are all run, and one more is too many.
echo 'start 2026-11-16 2413.37' >changed
seq 65534 | sed 's/.*/announce 2026-12 3100/' >>changed
echo 'announce 2026-12 3100 = 24' >>changed
expect 0 '' replay calendar changed made
rm made
sed -i '$s/24/0/' changed
expect 1 'line 65536: announce 2026-12 3100 = 0' replay calendar changed made
echo 'announce 2026-12 3100' >>changed
sed -i '$!s/ = 0//' changed
trouble 'one call more than fits' replay calendar changed made

# Another register's journal: nothing that replaces one of the two is offered, neither by a call nor by an audit.
fresh
expect 0 '' start calendar other 2026-11-16 5954.17 --journal diary
expect 0 '' session calendar other 2026-11-17 6000.10 --journal diary
expect 0 '' session calendar register 2026-11-18 2500.00 --journal journal
for pair in 'other journal' 'register diary'; do
    read -r one of_another <<<"$pair"
    for call in 'session calendar @ 2026-11-18 2500.00' 'announce calendar @ 2026-12 6900'; do
        # shellcheck disable=SC2086  # the words are several
        trouble "not this register's journal" ${call/@/$one} --journal "$of_another"
        [ -z "$(told force)" ] || fail "--force is offered: $(cat "$work/err")"
    done
    trouble "not this register's journal" undo calendar "$one" "$of_another"
    expect 1 "not this register's journal" audit calendar "$of_another" "$one"
    [ -z "$(told '--force')" ] || fail "--force is offered: $(cat "$work/err")"
done

# A start that was cut off before it wrote the register can be taken back.
fresh
head -n 1 journal >started
rm register
expect 0 '' undo calendar register started
has started '# taken back: start 2026-11-16 2413.37 = 0 added 94 removed 0 rows 94'
expect 0 '' start calendar register 2026-11-16 2500.00 --journal started
expect 0 '' audit calendar started register

# A journal that has no room for a line more takes none.
fresh
seq 119830 | sed 's/.*/# a line of thirty-two characters./' >>journal
trouble 'it is full' session calendar register 2026-11-18 2500.00 --journal journal
expect 0 '' audit calendar journal register
