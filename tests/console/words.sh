# shellcheck shell=bash disable=SC2154  # the names are those of run.sh and common.sh
# Help, and bad use.
day
for command in calendar check start session announce preview rows show picture name why replay audit undo file series; do
    answers "help-$command" "$command" --help
    answers "help-$command" "$command" -h
    answers "help-$command" help "$command"
    answers "help-$command" --help "$command"
    trouble "^(nothing was changed: )?$command wants .*missing$" "$command"
done
answers help --help
answers help -h
answers help help
answers help help help
answers version --version
answers version session --version
trouble '.'
trouble 'a command is missing' --yes

# What was meant by a mistyped word, in one line.
while read -r word meant; do
    trouble "^nothing was changed: there is no command $word: did you mean $meant\\?\$" "$word"
    trouble "^nothing was changed: there is no command $word: did you mean $meant\\?\$" "$word" calendar register 2026-11-18 2413.37
done <<'END'
sesion session
sessoin session
sessions session
seshon session
strat start
stat start
anounce announce
announce-strike announce
calender calendar
chekc check
previw preview
row rows
shwo show
pictur picture
names name
wyh why
rplay replay
audti audit
undoo undo
flie file
files file
serie series
seires series
END
trouble 'there is no command sesion: did you mean session' help sesion
trouble 'there is no command sesion: did you mean session' sesion --help
for word in frobnicate x '' -- '?'; do
    trouble '.' "$word"
    if grep -q 'did you mean' "$work/err"; then fail "'$word' was taken for something: $(cat "$work/err")"; fi
done
while read -r option meant; do
    trouble "there is no option $option: did you mean $meant\\?\$" session calendar register 2026-11-18 2413.37 "$option" journal
    trouble "there is no option $option: did you mean $meant\\?\$" session "$option" calendar register 2026-11-18 2413.37
done <<'END'
--jurnal --journal
--journals --journal
--jornal=journal --journal
--fiel --file
--files=series --file
--yess --yes
--ye --yes
--hepl --help
--verson --version
END
trouble 'there is no option --diary' session calendar register 2026-11-18 2413.37 --diary journal
trouble 'there is no option -j' session calendar register 2026-11-18 2413.37 -j journal

# An option of another command, one that stands there twice, one without its value; words that are missing or too many.
trouble 'session takes no --force' session calendar register 2026-11-18 2413.37 --force
trouble 'announce takes no --yes' announce calendar register 2026-12 3200 --yes
trouble 'replay takes no --yes' replay calendar journal register --yes
trouble 'rows takes no --journal' rows calendar register --journal journal
trouble 'undo takes no --journal=journal' undo calendar register --journal=journal
for call in 'announce calendar register 2026-12 3200' 'preview calendar register 2026-11-18 2413.37' 'rows calendar register' \
    'undo calendar register journal' 'replay calendar journal made' 'file calendar register made' 'series made'; do
    # shellcheck disable=SC2086  # the words are several
    trouble "${call%% *} takes no --file" $call --file series
    # shellcheck disable=SC2086
    trouble "${call%% *} takes no --file=series" $call --file=series
done
trouble 'stands there twice' session calendar register 2026-11-18 2413.37 --journal journal --journal=other
trouble 'stands there twice' session --yes calendar register 2026-11-18 2413.37 --yes
trouble 'stands there twice' session calendar register 2026-11-18 2413.37 --file series --file=other
for option in --journal --journal= --file --file=; do
    trouble 'wants the name of a file' session calendar register 2026-11-18 2413.37 "$option"
    trouble 'wants the name of a file' session "$option" --yes calendar register 2026-11-18 2413.37
done
trouble 'wants the name of a file' session calendar register 2026-11-18 2413.37 --journal ''
trouble '^nothing was changed: --file wants the name of a file' session calendar register 2026-11-18 2413.37 --journal journal --file ''
trouble '^nothing was changed: --file wants the name of a file' session calendar register 2026-11-18 2413.37 --file --journal journal
trouble '^nothing was changed: --journal wants the name of a file' session calendar register 2026-11-18 2413.37 --journal --file series
trouble 'there is no option --yes=1' session calendar register 2026-11-18 2413.37 --yes=1
trouble '1 word is missing' session calendar register 2026-11-18 --journal 2413.37
trouble '1 word is missing' session calendar register 2026-11-18 --file 2413.37
trouble '1 word too many, from more on' check calendar more
trouble '2 words too many, from more on' undo calendar register journal more words
trouble '1 word is missing' undo calendar register
trouble '2 words are missing' replay calendar --force
trouble '1 word is missing' file calendar register
trouble '1 word too many, from more on' file calendar register series more
trouble '1 word too many, from more on' series series more

# Options stand anywhere.
for words in '--journal journal session calendar register 2026-11-18 2413.37' 'session --journal journal calendar register 2026-11-18 2413.37' \
    'session calendar --journal journal register 2026-11-18 2413.37' 'session calendar register 2026-11-18 --journal=journal 2413.37' \
    '--journal=journal --yes session calendar register 2026-11-18 241337' 'session --yes calendar register --journal journal 2026-11-18 241337' \
    'session calendar register 2026-11-18 2413.37 --journal=journal'; do
    fresh
    # shellcheck disable=SC2086  # the words are several
    expect 0 '' $words
    has journal 'session 2026-11-18 2413.37 = 0 added 0 removed 0 rows 119'
    stands 2026-11-18 register
done
for words in '--file series session calendar register 2026-11-18 2413.37 --journal journal' \
    'session --journal journal --file series calendar register 2026-11-18 2413.37' \
    '--yes --journal=journal session calendar --file=series register 2026-11-18 241337'; do
    fresh
    # shellcheck disable=SC2086
    expect 0 '' $words
    has journal 'session 2026-11-18 2413.37 = 0 added 0 removed 0 rows 119'
    stands 2026-11-18 register
    [ "$(od -An -tx1 series)" = " 01 02 00 5a 26" ] || fail "'$words' wrote another file of series"
done
cp journal 'a=b'
expect 0 '' session calendar --journal='a=b' register 2026-11-19 2413.37
has 'a=b' 'session 2026-11-19 2413.37 = 0 added 0 removed 0 rows 119'
for words in '--force replay calendar journal register' 'replay --force calendar journal register' 'replay calendar --force journal register'; do
    cp "$work/day/register" register
    # shellcheck disable=SC2086
    expect 0 '' $words
    stands 2026-11-18 register
done
fresh

# Days, months and closes in other styles are shown as they are written here.
for word in 20261118 18.11.2026 18/11/2026 18-11-2026 2026/11/18 2026.11.18; do
    trouble "^nothing was changed: $word is no day: write 2026-11-18\$" session calendar register "$word" 2413.37 --journal journal
    trouble "^$word is no day: write 2026-11-18\$" preview calendar register "$word" 2413.37
    trouble "$word is no day: write 2026-11-18\$" start calendar made "$word" 2413.37
done
trouble '20261222 is no day: write 2026-12-22$' session calendar register 20261222 2413.37
trouble '22\.12\.2026 is no day: write 2026-12-22$' session calendar register 22.12.2026 2413.37
trouble '1\.2\.2027 is no day: write 2027-02-01$' session calendar register 1.2.2027 2413.37
for word in 202612 12.2026 12/2026 2026/12 2026.12; do
    trouble "$word is no month: write 2026-12\$" announce calendar register "$word" 3200
    trouble "$word is no month: write 2026-12\$" rows calendar register "$word"
    trouble "$word is no month: write 2026-12\$" name "$word" call 2400
    trouble "$word is no month: write 2026-12\$" why calendar register "$word" 2400
done
trouble '2413,37 is no close: write 2413.37$' session calendar register 2026-11-18 2413,37
for word in 2026-02-30 20260230 30.02.2026 2026-11 36525000000 11/18/2026 today ''; do
    trouble 'is no day: written as 2026-11-16, or' session calendar register "$word" 2413.37
done
for word in 2413.371 24,13,1 2.413,37 2,413.37 1e3 ''; do
    trouble 'is no close: written as 2413.37, or' session calendar register 2026-11-18 "$word"
done
trouble '.' session calendar register 2026-11-18 -5
trouble 'is no month' announce calendar register 2026-13 3100
trouble 'is no month' announce calendar register 2026-12-18 3100
trouble 'is no price' announce calendar register 2026-12 3100.5
trouble '.' name 2026-12 both 2400

# A day without session is said to be one.
refused 19 '2026-11-21 is not the next session day: it is a Saturday, without session' session calendar register 2026-11-21 2413.37
refused 19 '2026-11-22 is not the next session day: it is a Sunday, without session' preview calendar register 2026-11-22 2413.37
refused 19 '2026-12-25 is not the next session day: it is a Friday, without session' session calendar register 2026-12-25 2413.37
refused 19 '2026-11-11 is not the next session day: it is a Wednesday, without session' session calendar register 2026-11-11 2413.37
refused 19 '2026-11-19 is not the next session day$' session calendar register 2026-11-19 2413.37
refused 18 '2026-11-14 is a Saturday, without session' start calendar made 2026-11-14 2413.37
refused 18 '2026-12-25 is a Friday, without session' start calendar made 2026-12-25 2413.37
