# The tests of the door for other herds, for `check`, which has the words used here.

# The herd of five cows, whose lists are in this folder.
five() { # FOLDER [OPTIONS..]
    run "$week" "$room/other" --herd "$1/herd.csv" --visits "$1/visits.csv" --boxes 1 --washing none "${@:2}"
}

five_decided() { # FOLDER
    five "$1" >/dev/null && diff "$week/five/report.csv" "$room/other/report.csv"
}

other_form() { # FORM
    mkdir -p "$room/$1" && python3 -B "$week/forms.py" "$1" "$room/$1" && ! cmp -s "$room/$1/herd.csv" "$week/five/herd.csv" &&
        five_decided "$room/$1"
}

# A list of the five cows with one line put in the place of another is refused with these words.
wrong() { # WORDS FILE EDIT
    rm -rf "$room/wrong" && cp -r "$week/five" "$room/wrong" && sed -i "$3" "$room/wrong/$2" &&
        ! cmp -s "$room/wrong/$2" "$week/five/$2" && ! five "$room/wrong" 2>"$room/error" && grep -F "$room/wrong/$2, $1" "$room/error"
}

# A display with a comma and a line end is one field of its row.
quoted() {
    changed rules.nib 's/PRINT "BOX TAKEN"/PRINT "BOX, TAKEN":PRINT "WAIT"/' && run "$room/changed" "$room/other" >/dev/null &&
        python3 -c '
import csv, sys
rows = list(csv.reader(open(sys.argv[1], newline="")))
sys.exit({len(row) for row in rows} != {18} or not any(row[9].endswith(" BOX, TAKEN\r\nWAIT") for row in rows))' "$room/other/report.csv"
}

# A cow that was milked 23 days ago has waited long enough, for all that a program can count.
long_ago() {
    changed herd.csv 's/^\(2,.*\),[-0-9]*,[-0-9]*$/\1,-33130,-33120/' && run "$room/changed" "$room/other" >/dev/null &&
        [ "$(awk -F, '$4 == 2 { print $5, $7; exit }' "$room/other/report.csv")" = "admitted 32767" ]
}

# A rule that is not on paper is counted.
ninth_rule() {
    changed rules.nib 's/^402 IF F R=6/402 IF F R=12/' && run "$room/changed" "$room/other" >/dev/null &&
        grep -E '^rule,12,[1-9]' "$room/other/sums.csv" && grep -E ',12,.*,no such rule,402,' "$room/other/report.csv"
}

# A book that lets no cow in is held to one that does: the minutes have no end, and all files are there.
never() {
    changed rules.nib 's/R=\([678]\):GOSUB 900/R=\1:GOSUB 800/' &&
        run "$room/changed" "$room/other" --change "$week/retyped.nib" --second "$week/rules.nib" --at 'Sun 20:00' >/dev/null &&
        grep -q ',over 1440,' "$room/other/early.csv" && [ -s "$room/other/week.html" ]
}

# Whoever reads the first line only gets it, and nothing else is said.
broken_pipe() {
    local status
    run "$room/edges" "$room/other" 2>"$room/error" | head -n 0
    status=${PIPESTATUS[0]}
    [ "$status" -eq 0 ] && [ ! -s "$room/error" ]
}

with_lf() {
    changed rules.nib 's/\r$//' && run "$room/changed" "$room/other" >/dev/null && decided "$room/other"
}

remarked() { # WORDS EDIT
    changed rules.nib "$2" && cp "$room"/edges/*.csv "$room/changed" && run "$room/changed" "$room/other" | grep -E "$1"
}

# Without a second book there is none in the reports, nor what an earlier run left there.
one_book() {
    five "$week/five" >/dev/null && [ -e "$room/other/second.csv" ] &&
        five "$week/five" --rules "$week/rules.nib" >"$room/told" && [ ! -e "$room/other/second.csv" ] && [ ! -e "$room/other/early.csv" ] &&
        ! grep -q 'second book' "$room/told" && [ -s "$room/other/week.html" ]
}

# A second book of its own from Monday on: slow milkers wait as long as the others.
whole_book() {
    sed 's/I>=360/I>=300/' "$week/rules.nib" >"$room/second.nib" &&
        run "$week" "$room/other" --rules "$week/rules.nib" --second "$room/second.nib" >/dev/null &&
        awk -F, 'NR > 1 && $1 < 5040 { early++ } END { exit !early }' "$room/other/early.csv"
}

usage() { # WORDS [OPTIONS..]
    "$root/tools/week" "${@:2}" >"$room/told" 2>"$room/error"
    [ $? -eq 2 ] && grep -F -- "$1" "$room/error"
}

door() {
    local form words edit
    holds "the herd of five cows is decided as its report says" five_decided "$week/five"
    for form in comma tab minutes; do
        holds "the same lists with another form: $form" other_form "$form"
    done
    holds "one book alone" one_book
    holds "a second book that is whole" whole_book
    holds "a display with a comma and two lines is one field" quoted
    holds "a cow milked 23 days ago" long_ago
    holds "a rule that is not on paper" ninth_rule
    holds "a book that never lets a cow in" never
    holds "a broken pipe" broken_pipe
    holds "a rule book with LF ends" with_lf
    holds "remarked on: the gate opened on a cow" remarked 'opens the gate on a cow in the box, [0-9]+ times; first on' 's/^302 IF STAT AND 16/302 IF STAT AND 8/'
    holds "remarked on: the gate opened in a wash" remarked 'opens the gate while the box is washed' 's/^304 IF STAT AND 32/304 IF STAT AND 8/'
    while IFS='|' read -r words file edit; do
        holds "refused: $words" wrong "$words" "$file" "$edit"
    done <"$week/wrong.txt"
    holds "an option that is none" usage 'there is no option --heard' --heard x
    holds "an option without its value" usage '--herd needs a value' --herd
    holds "boxes that are no number" usage '--boxes three: allowed is a number from 1 to 255' --boxes three
}
