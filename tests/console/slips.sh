# shellcheck shell=bash disable=SC2154  # the names are those of run.sh and common.sh
# Slips of the hand: words exchanged, a destination that is also an input, one of another kind, a register moved back. Each
# is refused and changes no file.
day
mkdir other folder
cp "$root/calendars/warsaw.txt" list
cp calendar register journal list other
expect 0 '' picture calendar register other/picture
expect 0 '' file calendar register other/series
cp other/picture picture.svg
cp other/series .

# Each word in turn names a file of each other kind, and is told what that is.
declare -A kinds=([calendar]=calendar [register]=register [journal]=journal [list]='list of days' [picture]='picture of ours'
    [series]='file of series')

# exchanged KIND WORD ..: a file of the kind is wanted in the place of @.
exchanged() {
    local kind wanted=$1
    shift
    for kind in calendar register journal list picture series; do
        if [ "$kind" = "$wanted" ]; then continue; fi
        trouble "other/$kind: that is a ${kinds[$kind]}, and a ${kinds[$wanted]} is wanted: were two names exchanged" \
            "${@/#@/other/$kind}"
    done
}

exchanged list calendar @ made
exchanged calendar calendar list @
exchanged calendar check @
exchanged calendar start @ made 2026-11-16 2413.37
exchanged register start calendar @ 2026-11-16 2413.37
exchanged journal start calendar made 2026-11-16 2413.37 --journal @
exchanged calendar session @ register 2026-11-18 2413.37
exchanged register session calendar @ 2026-11-18 2413.37
exchanged journal session calendar register 2026-11-18 2413.37 --journal @
exchanged calendar announce @ register 2026-12 3200
exchanged register announce calendar @ 2026-12 3200
exchanged journal announce calendar register 2026-12 3200 --journal @
exchanged calendar preview @ register 2026-11-18 2413.37
exchanged register preview calendar @ 2026-11-18 2413.37
exchanged calendar rows @ register
exchanged register rows calendar @
exchanged calendar show @ register
exchanged register show calendar @
exchanged calendar picture @ register made
exchanged register picture calendar @ made
exchanged picture picture calendar register @
exchanged calendar why @ register OW20L262400
exchanged register why calendar @ OW20L262400
exchanged calendar replay @ journal made
exchanged journal replay calendar @ made
exchanged register replay calendar journal @
exchanged calendar audit @ journal register
exchanged journal audit calendar @ register
exchanged register audit calendar journal @
exchanged calendar undo @ register journal
exchanged register undo calendar @ journal
exchanged journal undo calendar register @
exchanged series start calendar made 2026-11-16 2413.37 --file @
exchanged series session calendar register 2026-11-18 2413.37 --file @
exchanged calendar file @ register made
exchanged register file calendar @ made
exchanged series file calendar register @
exchanged series series @

# The same words in another order. A register without a byte 0x0A looks like a line that was cut off.
expect 0 '' start calendar without-feeds 2026-11-16 1900.00 --journal diary
if [ "$(LC_ALL=C tr -dc '\n' <without-feeds | wc -c)" -ne 0 ]; then fail "the register has line feeds"; fi
trouble 'without-feeds: that is a register' replay calendar without-feeds diary
trouble 'without-feeds: that is a register' replay calendar without-feeds journal
trouble 'without-feeds: that is a register' replay calendar without-feeds register
trouble 'without-feeds: that is a register' audit calendar without-feeds register
trouble 'without-feeds: that is a register' session calendar register 2026-11-18 2413.37 --journal without-feeds
trouble 'register: that is a register' replay calendar register journal
trouble 'journal: that is a journal' replay journal calendar register
trouble 'journal: that is a journal' undo calendar journal register
trouble 'register: that is a register' undo register calendar journal
trouble 'journal: that is a journal' audit journal calendar register
trouble 'register: that is a register' session register calendar 2026-11-18 2413.37
trouble 'calendar: that is a calendar' calendar calendar list

# What is no journal: a register without a byte 0x0A, a text without one call, nothing at all, bytes with a zero among them.
head -c 11264 /dev/zero >empty
printf 'Dear all,\nthe cake is in the kitchen\n' >letter
printf '# no call\n\n' >comments
: >nothing
printf 'start 2026-11-16 2413.37\n\0\n' >zeros
printf 'start 2026-11-16 2413.37\nsession 2026-11-17 26\0' >zero-at-end
for file in empty letter comments nothing zeros zero-at-end; do
    trouble "$file: .*(journal|register)" replay calendar "$file" register
    trouble "$file: .*(journal|register)" replay calendar "$file" register --force
    trouble "$file: .*(journal|register)" replay calendar "$file" made
    trouble "$file: .*(journal|register)" audit calendar "$file" register
    trouble "$file: .*(journal|register)" undo calendar register "$file"
    trouble "$file: .*(journal|register)" session calendar register 2026-11-18 2413.37 --journal "$file"
done

# A destination that is also an input, in every place that there is.
also='is also another file of this command'
trouble "$also" calendar list list
trouble "$also" picture calendar register register
trouble "$also" picture calendar register calendar
trouble "$also" replay calendar journal journal
trouble "$also" replay calendar journal journal --force
trouble "$also" replay calendar journal calendar
trouble "$also" start calendar calendar 2026-11-16 2413.37
trouble "$also" start calendar made 2026-11-16 2413.37 --journal calendar
trouble "$also" start calendar made 2026-11-16 2413.37 --journal made
trouble "$also" session calendar register 2026-11-18 2413.37 --journal register
trouble "$also" session calendar register 2026-11-18 2413.37 --journal calendar
trouble "$also" announce calendar register 2026-12 3200 --journal register
trouble "$also" undo calendar register register
trouble "$also" undo calendar register calendar
trouble "$also" undo calendar calendar journal
trouble "$also" file calendar register register
trouble "$also" file calendar register calendar
trouble "$also" start calendar made 2026-11-16 2413.37 --file made
trouble "$also" start calendar made 2026-11-16 2413.37 --file calendar
trouble "$also" start calendar made 2026-11-16 2413.37 --journal diary --file diary
trouble "$also" session calendar register 2026-11-18 2413.37 --file register
trouble "$also" session calendar register 2026-11-18 2413.37 --file calendar
trouble "$also" session calendar register 2026-11-18 2413.37 --journal journal --file journal
trouble "$also" session calendar register 2026-11-18 2413.37 --journal series --file series

# The same under another name: a path, a link, a hard link, a folder that is a link; and where no file has the name yet.
ln -s . here
ln -s register link
ln -s "$PWD/register" absolute
ln register hard
ln -s made to-made
for name in ./register folder/../register here/register link absolute hard; do
    trouble "$also" picture calendar register "$name"
    trouble "$also" session calendar register 2026-11-18 2413.37 --journal "$name"
    trouble "$also" undo calendar register "$name"
done
for name in ./made folder/../made here/made to-made here/to-made; do
    trouble "$also" start calendar made 2026-11-16 2413.37 --journal "$name"
    trouble "$also" start calendar made 2026-11-16 2413.37 --file "$name"
    trouble "$also" start calendar register 2026-11-16 2413.37 --journal made --file "$name"
done
trouble "$also" start calendar to-made 2026-11-16 2413.37 --journal made
ln journal hard-journal
trouble "$also" replay calendar journal hard-journal
trouble "$also" session calendar register 2026-11-18 2413.37 --journal journal --file hard-journal
trouble "$also" calendar list ./list

# The new file beside a destination, which is its lock, is none of the command's files either.
trouble 'nothing was changed: .*register' session calendar register 2026-11-18 2413.37 --journal register.new
trouble 'nothing was changed: .*made' start calendar made 2026-11-16 2413.37 --journal made.new
trouble 'nothing was changed: .*made' start calendar made 2026-11-16 2413.37 --journal ./made.new
trouble 'nothing was changed: .*register' session calendar register 2026-11-18 2413.37 --file register.new
trouble 'nothing was changed: .*journal' session calendar register 2026-11-18 2413.37 --journal journal --file journal.new
trouble 'nothing was changed: .*made' session calendar register 2026-11-18 2413.37 --journal made.new --file made
trouble 'nothing was changed: .*made' file calendar made.new made
cp register made.new
trouble 'nothing was changed: .*made' session calendar made.new 2026-11-18 2413.37 --file made
trouble 'nothing was changed: .*made' file calendar made.new made
rm made.new
cp journal made.new
trouble 'nothing was changed: .*made' replay calendar made.new made
trouble 'nothing was changed: .*made' replay calendar here/made.new made
mv made.new register.new
trouble 'nothing was changed: .*register' undo calendar register register.new
rm register.new
cp list calendar.new
trouble 'nothing was changed: .*calendar' calendar calendar.new calendar
rm calendar.new

# A destination that is there and not of the kind that is written.
head -c 4565 calendar >short-calendar
head -c 11263 register >short-register
sed '1s/1200/1201/g' picture.svg >other.svg
for file in letter comments nothing short-register other.svg; do
    trouble "$file: is there and is no calendar" calendar list "$file"
done
trouble 'short-calendar: is there and is no calendar' calendar list short-calendar
for file in letter comments nothing short-calendar other.svg; do
    trouble "$file: is there and is no register" replay calendar journal "$file"
    trouble "$file: is there and is no register" replay calendar journal "$file" --force
done
trouble 'short-register: is there and is no register' replay calendar journal short-register
for file in letter comments nothing short-calendar short-register other.svg; do
    trouble "$file: is there and is no picture of ours" picture calendar register "$file"
done
# A file of series is known by its first three bytes and its length.
head -c 20 series >short-series
printf '\1\2\0\1' >head-series
printf '\1\2\1\1\1' >other-series
for file in letter comments nothing short-calendar short-register other.svg head-series other-series; do
    trouble "$file: is there and is no file of series" file calendar register "$file"
    trouble "$file: is there and is no file of series" session calendar register 2026-11-18 2413.37 --file "$file"
    trouble "$file: is there and is no file of series" start calendar made 2026-11-16 2413.37 --file "$file"
done
head -c 19 series >shorter
trouble 'shorter: is there and is no file of series' file calendar register shorter
expect 0 '' file calendar register short-series
same short-series series
expect 0 '' picture calendar register picture.svg
same picture.svg other/picture

# A replay never writes an empty register.
printf 'session 2026-11-17 2413.37 = 17\nannounce 2026-12 3100 = 17\n' >refusals
trouble 'gives an empty register' replay calendar refusals made
trouble 'gives an empty register' replay calendar refusals register
trouble 'gives an empty register' replay calendar refusals register --force
trouble 'gives an empty register' replay calendar refusals empty

# It replaces a register that runs only where that is asked for, and says what it replaces: one that is later, one that is
# earlier, one of the same day, a damaged one.
head -n 1 journal >earlier
sed '$s/ = .*//; $s/2631.00/2700.00/' journal >otherwise
{ cat journal && echo 'session 2026-11-18 2500.00'; } >later
cp register damaged
poke damaged 7 1
cp register running
for file in earlier otherwise later; do
    trouble 'running: it is a register that stands at 2026-11-17, 119 rows, 0 waiting; the journal gives .*' replay calendar "$file" running
    answers "replay-over-$file" replay calendar "$file" running --force
    expect 0 '' audit calendar "$file" running
    cp register running
done
trouble 'damaged: it is .* a damaged one; the journal gives 2026-11-17' replay calendar journal damaged
answers replay-over-damaged replay calendar journal damaged --force
same damaged register
# One that is equal is not written again; an empty one has nothing to lose.
remember
answers replay-equal replay calendar journal register
answers replay-equal replay calendar journal register --force
unchanged
expect 0 '' replay calendar journal empty
same empty register

# A text is no calendar and no register for its length: a comment makes a journal and a list as long.
# padded FILE SIZE
padded() {
    local rest=$(($2 - $(wc -c <"$1") - 3))
    cat "$1"
    printf '# %*s\n' "$rest" '' | tr ' ' -
}
grep -v '^#' list | sed -n 1,20p >days
for size in 4566 11264; do
    padded journal "$size" >padded-journal
    padded days "$size" >padded-list
    [ "$(stat -c %s padded-journal padded-list | sort -u)" -eq "$size" ] || fail "the journal and the list have not $size bytes"
    trouble 'padded-journal: that is a journal, and a calendar is wanted' calendar list padded-journal
    trouble 'padded-list: that is a list of days, and a calendar is wanted' rows padded-list register
    trouble 'padded-journal: that is a journal, and a register is wanted' replay calendar journal padded-journal --force
    trouble 'padded-journal: that is a journal, and a register is wanted' session calendar padded-journal 2026-11-18 2413.37
    trouble 'padded-journal: that is a journal, and a picture of ours is wanted' picture calendar register padded-journal
    rm -f made
    expect 0 '' calendar padded-list made
    expect 0 '' audit calendar padded-journal register
    cp register running
    expect 0 '' session calendar running 2026-11-18 2413.37 --journal padded-journal
    padded journal "$size" >padded-journal
    cp register running
    expect 0 '' undo calendar running padded-journal
done
