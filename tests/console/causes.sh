# shellcheck shell=bash disable=SC2154  # the names are those of run.sh and common.sh
# Every cause, with its number and its words; a refusal changes no file.
day
head -c 4565 calendar >short
refused 11 '4565 bytes' check short
cp calendar tail
poke tail 4565 377
refused 12 '2099-12-31' check tail
head -c 4566 /dev/zero >none
refused 13 '2000-01' check none
cp register damaged
poke damaged 7 1
refused 15 'replay --force CALENDAR JOURNAL REGISTER' rows calendar damaged
head -c 11264 /dev/zero >empty
expect 0 '' file calendar register series
# Over a file that is there and where there is none; the words are the same.
kept=$messages
for file in series made; do
    if [ "$file" = made ]; then messages=/dev/null; fi
    refused 12 '2099-12-31' file tail register "$file"
    refused 13 '2000-01' file none register "$file"
    refused 15 'replay --force CALENDAR JOURNAL REGISTER' file calendar damaged "$file"
    refused 17 'start' file calendar empty "$file"
    refused 12 '2099-12-31' session tail register 2026-11-18 2413.37 --file "$file"
    refused 15 'replay --force' session calendar damaged 2026-11-18 2413.37 --file "$file"
    refused 16 'stands at 2026-11-17' start calendar register 2026-11-17 2413.37 --file "$file"
    refused 17 'start' session calendar empty 2026-11-17 2413.37 --file "$file"
    refused 18 'the next after it is 2026-11-16' start calendar empty 2026-11-14 2413.37 --file "$file"
    refused 19 '2026-11-18' session calendar register 2026-11-21 2413.37 --file "$file"
    refused 21 '90.00 to 9549.99' session calendar register 2026-11-18 80.00 --file "$file"
done
messages=$kept
refused 16 'stands at 2026-11-17' start calendar register 2026-11-17 2413.37
refused 17 'start' session calendar empty 2026-11-17 2413.37
refused 18 'the next after it is 2026-11-16' start calendar empty 2026-11-14 2413.37
refused 19 '2026-11-18' session calendar register 2026-11-21 2413.37
refused 20 'March 2099' start calendar empty 2099-03-23 2413.37
refused 21 '90.00 to 9549.99' session calendar register 2026-11-18 80.00
refused 22 'open for announcements: 2026-11 2026-12 ' announce calendar register 2027-02 3100
refused 23 '3100 .below. 3150 .above.' announce calendar register 2026-12 3110
refused 24 '2000 to 3100' announce calendar register 2026-12 2400
cp register full
fill full
refused 25 '32 announcements wait' announce calendar full 2026-12 5600
refused 26 'live months: 2026-11 2026-12 ' rows calendar register 2027-02
refused 27 'OW20L262400' name OW20L26240
refused 28 'grid of tier N: 5 to 475 by 5' name 2026-12 call 2401
refused 29 'character 5' name OW20Z262400
printf '\1\2\0\377\377' >past
refused 31 'place 3, counted from 0' series past
