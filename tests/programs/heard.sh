# Sourced by run: the broadcast issue from one's own log (02, CR 6). The program
# issues, over subframes of B-CNAV1 in text, and night -m, over mixed logs.
subframes=samples/subframes.cnav1 mixed=samples/mixed.txt
hex_of() { sed -n "$2s/.* //p" "$1"; }

# ---- issues ----

# named FILE: of lines on standard error, which line of the input each names, and the
# number that it was refused.
named() { sed -n 's/.*line \([0-9]*\): .*refused \([0-9]*\).*/\1 \2/p' "$1"; }

# joined NAME ARGS..: issues has status 0, prints what was wanted last, and names the
# lines that were due, one after the other, and nothing else.
joined() {
    local name=$1 why=
    shift
    call issues "$@"
    status_is 0
    writes "$folder/wanted"
    named "$folder/said" | cmp -s - "$folder/due" || why="$why other lines are named as refused;"
    [ "$(wc -l <"$folder/said")" = "$(wc -l <"$folder/due")" ] || why="$why something else on standard error;"
    verdict "$name" "$why"
}

# joins NAME ARGS..: what is wanted is what the independent implementation prints, and
# due what it names.
joins() {
    local name=$1
    shift
    reference issues "$@"
    named "$folder/unwanted" >"$folder/due"
    joined "$name" "$@"
}
joins "issues, the sample" $subframes
joined "issues, standard input" - <$subframes
joined "issues, a pipe" - < <(cat $subframes)
joins "issues -i, the sample" -i samples/night-issues.txt $subframes
why=
writes samples/heard-issues.txt
[ "$(named "$folder/said" | tr '\n' ' ')" = "41 36 42 35 43 37 " ] || why="$why another three are refused;"
verdict "issues -i, the sample: the list is as it should be, and three lines are refused" "$why"
cp "$folder/out" "$folder/heard-issues"
joined "issues -i, issues on standard input" -i - $subframes <samples/night-issues.txt
joined "issues -i, issues and subframes from pipes" -i <(cat samples/night-issues.txt) <(cat $subframes)
prints samples/heard-issues.txt "issues -i of what it printed, and nothing heard" issues -i "$folder/heard-issues" "$folder/empty"
prints "$folder/empty" "issues, an empty file" issues "$folder/empty"
sed -n '41,$p' $subframes >"$folder/lines"
joins "issues, nothing but refused lines" "$folder/lines"
why=
writes_nothing
verdict "issues, nothing but refused lines: no issue" "$why"
hex=$(hex_of $subframes 3)
for line in "C19 ${hex%??}" "C19 ${hex}00" "C19 00" "C19 ${hex/%??/00}" "C01 $hex" "C63 $hex"; do echo "$line"; done >"$folder/lines"
joins "issues, subframes too short and too long, and the ends of BeiDou" "$folder/lines"
tac $subframes >"$folder/lines"
joins "issues -i, the sample from its end" -i $issues "$folder/lines"

# Remarks, blanks and line ends as ISSUES files have them.
{ printf '\357\273\277' && grep -v '^#' $subframes; } >"$folder/lines"
joins "issues, a byte order mark before a satellite" "$folder/lines"
sed 's/^\(C.*\)/\1 # heard at 22:00/' $subframes >"$folder/lines"
joins "issues, remarks behind the subframes" "$folder/lines"
sed 's/$/\r/' $subframes >"$folder/lines"
joins "issues, line ends of two bytes" "$folder/lines"
printf %s "$(cat $subframes)" >"$folder/lines"
joins "issues, no line end at the end" "$folder/lines"
sed 's/^C\([0-9]*\) /  C\1\t /; s/$/ \t/' $subframes >"$folder/lines"
joins "issues, blanks and tabs" "$folder/lines"
sed '/^C/s/ .*/\U&/' $subframes >"$folder/lines"
joins "issues, digits A to F" "$folder/lines"
{ remark 65536 && cat $subframes; } >"$folder/lines"
joins "issues, a line of 65536 bytes" "$folder/lines"

# A line that is no record: it is named, and nothing is printed.
no_record() {
    { head -n 4 $subframes && echo "$2" && sed -n 6,12p $subframes; } >"$folder/bad"
    fails 1 "issues, $1" issues "$folder/bad"
    why=
    says_one_line "^issues: $folder/bad: line 5: ."
    verdict "issues, $1: it is named" "$why"
}
no_record "a satellite of GPS" "G01 $hex"
no_record "BeiDou 64" "C64 $hex"
no_record "BeiDou 0" "C00 $hex"
no_record "one digit of a satellite is lost" "C1 $hex"
no_record "a satellite alone" "C19"
no_record "a subframe alone" "$hex"
no_record "a subframe in a remark" "C19 # $hex"
no_record "a remark without a blank before it" "C19 $hex# heard at 22:00"
no_record "an odd number of digits" "C19 ${hex%?}"
no_record "one digit" "C19 0"
no_record "a digit that is none" "C19 ${hex%?}g"
no_record "a third word" "C19 $hex $hex"
no_record "a line of 65537 bytes" "$(remark 65537)"
fails 1 "issues, bytes that are no text" issues $log
{ cat $subframes && echo "C64 $hex"; } >"$folder/bad"
call issues "$folder/bad"
why=
status_is 1
writes_nothing
tail -n 1 "$folder/err" | grep -q "^issues: $folder/bad: line 44: ." || why="$why the line is not named last;"
verdict "issues, refused lines and then one that is no record" "$why"
fails 1 "issues, no record on standard input" issues - <"$folder/line"

# What issues prints is what night reads: one more satellite than by the list that was there.
agrees "night, the issues that were heard" 60 "$folder/heard-issues" samples/night-1.log samples/night-2.log
why=
grep -q '^rows 34$' "$folder/out" && grep -q '^25 C25 13 ' "$folder/out" || why=" C25 has no row"
verdict "night, the issues that were heard: C25 has its row" "$why"

# ---- night -m ----

# has_line PATTERN: the last report has such a line.
has_line() { grep -q -x -- "$1" "$folder/out" || why="$why no line '$1';"; }

prints samples/mixed.expected "night -m, the sample" night -m 60 none $mixed
why=
[ "$(cat "$folder/said")" = "... $mixed: line 39: not a record" ] || why=" the first bad line is not named, or more is said"
verdict "night -m, the sample: the first bad line is named" "$why"
prints samples/mixed.expected "night -m --quiet, the sample" night -m --quiet 60 none $mixed
why=
[ ! -s "$folder/said" ] || why=" it is named"
verdict "night -m --quiet, the sample: no bad line is named" "$why"
agrees "night -m, with issues" -m 60 $issues $mixed
agrees "night -m -e" -m -e 60 $issues $mixed
agrees "night -e -m" -e -m 60 none $mixed
agrees "night -m --csv" -m --csv 60 none $mixed
agrees "night -m, an empty list of issues" -m 60 "$folder/empty" $mixed
why=
writes samples/mixed.expected
verdict "night -m, an empty list of issues is none" "$why"
unfit 'unfit rows 17 below 18' "night -m --min-rows" -m --min-rows 18 60 none $mixed
unfit 'unfit refused 18 of 241 above 7 percent' "night -m --max-refused: of frames alone" -m --max-refused 7 60 none $mixed
prints samples/mixed.expected "night -m, standard input" night -m 60 none - <$mixed
prints samples/mixed.expected "night -m, a pipe" night -m 60 none - < <(cat $mixed)
agrees "night -m, another PRN" -m --min-rows 0 59 none $mixed
agrees "night, no issues without -m" --min-rows 0 60 none $log

# Two logs: the later one counts, and no line goes on in the next log.
head -n 200 $mixed >"$folder/first"
tail -n +201 $mixed >"$folder/second"
prints samples/mixed.expected "night -m, two logs" night -m 60 none "$folder/first" "$folder/second"
prints samples/mixed.expected "night -m, two logs and an empty one" night -m 60 none "$folder/first" "$folder/empty" "$folder/second"
agrees "night -m, two logs in the other order" -m 60 none "$folder/second" "$folder/first"
printf %s "$(cat "$folder/first")" >"$folder/between"
prints samples/mixed.expected "night -m, two logs, no line end between them" night -m 60 none "$folder/between" "$folder/second"
at=$(($(head -n 150 $mixed | wc -c) + 5)) # inside the satellite's name
head -c $at $mixed >"$folder/first"
tail -c +$((at + 1)) $mixed >"$folder/second"
agrees "night -m, a line in two logs" -m 60 none "$folder/first" "$folder/second"
why=
has_line 'lines 376 bad 8'
verdict "night -m, a line in two logs: it is two bad lines" "$why"

# Text as ISSUES files have it.
sed 's/$/\r/' $mixed >"$folder/lines"
prints samples/mixed.expected "night -m, line ends of two bytes" night -m 60 none "$folder/lines"
{ printf '\357\273\277' && tail -n +2 $mixed; } >"$folder/lines"
prints samples/mixed.expected "night -m, a byte order mark before a frame" night -m 60 none "$folder/lines"
printf %s "$(cat $mixed)" >"$folder/lines"
prints samples/mixed.expected "night -m, no line end at the end" night -m 60 none "$folder/lines"
sed 's/ /\t  /g; s/^/ /; s/$/\t/' $mixed >"$folder/lines"
prints samples/mixed.expected "night -m, blanks and tabs" night -m 60 none "$folder/lines"
awk '{ print; print "  # a remark"; print "" }' $mixed >"$folder/lines"
prints samples/mixed.expected "night -m, remarks and blank lines are not counted" night -m 60 none "$folder/lines"
sed '/^[BCD]/s/ [0-9a-f]*$/\U&/' $mixed >"$folder/lines"
prints samples/mixed.expected "night -m, digits A to F" night -m 60 none "$folder/lines"

# Logs that have nothing, or not all.
unfit 'unfit rows 0 below 1' "night -m, an empty log" -m 60 none "$folder/empty"
why=
for line in 'frames 0 taken 0 refused 0' 'cnav1 0 joined 0 refused 0' 'd1 0 read 0 refused 0' 'lines 0 bad 0'; do has_line "$line"; done
verdict "night -m, an empty log: all lines stand" "$why"
grep '^B2B' $mixed >"$folder/lines"
unfit 'unfit rows 0 below 1' "night -m, frames alone" -m 60 none "$folder/lines"
agrees "night -m, frames alone, with issues" -m 60 $issues "$folder/lines"
grep -v '^B2B' $mixed >"$folder/lines"
unfit 'unfit rows 0 below 1' "night -m, subframes alone" -m 60 none "$folder/lines"
agrees "night, a mixed log without -m" --min-rows 0 60 $issues $mixed

# Bytes that are no text end in bad lines.
for file in $log samples/night-1.log $messages samples/subframes.d1; do
    unfit 'unfit rows 0 below 1' "night -m, no text: $file" -m 60 $issues $file
    why=
    has_line 'frames 0 taken 0 refused 0'
    has_line 'lines \([0-9]*\) bad \1'
    verdict "night -m, no text: $file: all lines are bad" "$why"
done

# Lines that are no record, between records that are, whatever these say.
frame=$(sed -n 's/^B2B //p' $mixed | head -n 1)
subframe=$(sed -n 's/^D1 C06 //p' $mixed | head -n 1)
cat >"$folder/records" <<END_OF_RECORDS
B2B 00
B2B $frame
B2B ${frame}00
CNAV1 C01 $hex
CNAV1 C63 $hex
CNAV1 C63 00
CNAV1 C63 ${hex}00
D1 C01 $subframe
D1 C63 $subframe
D1 C63 00
D1 C63 ${subframe}00
D1 C63 ${subframe/%?/1}
END_OF_RECORDS
agrees "night -m, records" -m --min-rows 0 60 none "$folder/records"
why=
has_line "lines $(wc -l <"$folder/records") bad 0"
verdict "night -m, records: none is bad" "$why"
cat >"$folder/bad" <<END_OF_LINES
B2B
b2b $frame
B2B ${frame%?}
B2B ${frame%?}g
B2B 0x$frame
B2B $frame# kept
B2B $frame $frame
B2B C19 $frame
B2B$frame
$frame
CNAV1
CNAV1 C19
CNAV1 $hex
cnav1 C19 $hex
CNAV1 C19 ${hex%?}
CNAV1 C19 ${hex%?}-
CNAV1 C19 $hex 00
CNAV1 C00 $hex
CNAV1 C64 $hex
CNAV1 C1 $hex
CNAV1 C019 $hex
CNAV1 G19 $hex
CNAV1 19 $hex
CNAV2 C19 $hex
D1
D1 C06
D1 $subframe
d1 C06 $subframe
D2 C06 $subframe
D1 C64 $subframe
D1 E06 $subframe
D1 C06 ${subframe%?}
D1 C06 ${subframe%?}x
D1 C06 $subframe 00
C19 $hex
C19 37
nonsense
END_OF_LINES
agrees "night -m, lines that are no record" -m --min-rows 0 60 none "$folder/bad"
why=
has_line "lines $(wc -l <"$folder/bad") bad $(wc -l <"$folder/bad")"
verdict "night -m, lines that are no record: all are bad" "$why"
awk -v bad="$folder/bad" '{ print; if ((getline line <bad) > 0) print line }' $mixed >"$folder/lines"
agrees "night -m, lines that are no record between the sample's" -m 60 none "$folder/lines"
why=
sed '/^lines /d' samples/mixed.expected >"$folder/due"
sed '/^lines /d' "$folder/out" | cmp -s - "$folder/due" || why=" something else changed"
verdict "night -m, lines that are no record change the count of lines alone" "$why"
printf 'B2B %s\0\nB2\0B %s\n\0\nB2B %s\n' "$frame" "$frame" "$frame" >"$folder/lines"
agrees "night -m, bytes that are zero" -m --min-rows 0 60 none "$folder/lines"
why=
has_line 'lines 4 bad 3'
verdict "night -m, bytes that are zero: three lines are bad" "$why"

# Lines as long as one may be, or longer, a record behind each; the last without an end.
digits() { awk -v n="$1" 'BEGIN { s = "0"; while (length(s) < n) s = s s; printf "%s", substr(s, 1, n) }'; }
{
    remark 65536
    echo "B2B $frame"
    remark 65537
    echo "B2B $frame"
    echo "B2B $(digits 65532)"
    echo "B2B $(digits 65534)"
    echo "B2B $frame"
    remark 300000
    echo "CNAV1 C19 $hex"
    echo "CNAV1 C20 $(digits 200000)"
    echo "D1 C06 $subframe"
    echo "B2B $(digits 140000)$frame"
    printf 'B2B %s' "$(digits 65536)"
} >"$folder/lines"
agrees "night -m, long lines" -m --min-rows 0 60 none "$folder/lines"
why=
has_line 'frames 4 .*'
has_line 'cnav1 1 joined 1 refused 0'
has_line 'd1 1 read 1 refused 0'
has_line 'lines 12 bad 6'
verdict "night -m, long lines: those above 65536 bytes are bad" "$why"

# One byte lost, anywhere: at most one line is bad that was none, and one record fewer
# is taken; two, where it is the end of a line. Lines of each kind.
# sum_of: how many records a report counts, and how many bad lines.
sum_of() { awk '/^(frames|cnav1|d1) / { n += $2 } /^lines / { bad = $4 } END { print n + 0, bad + 0 }'; }
read -r all_records all_bad < <(sum_of <samples/mixed.expected)
why=
for line in 1 2 4 5 39 151; do
    from=$(($(head -n $((line - 1)) $mixed | wc -c))) length=$(sed -n ${line}p $mixed | wc -c)
    for column in 0 1 2 3 6 8 $((length / 2)) $((length - 2)) $((length - 1)); do
        at=$((from + column)) fewer=$((column < length - 1 ? 1 : 2))
        { head -c $at $mixed && tail -c +$((at + 2)) $mixed; } >"$folder/torn"
        reference night -m --quiet 60 none "$folder/torn"
        bare night -m --quiet 60 none "$folder/torn" >"$folder/out" 2>&1
        cmp -s "$folder/out" "$folder/wanted" || why="$why line $line byte $column: not as it should be;"
        read -r records bad < <(sum_of <"$folder/out")
        [ "$records" -ge $((all_records - fewer)) ] && [ "$bad" -le $((all_bad + 1)) ] ||
            why="$why line $line byte $column: $records records, $bad bad;"
    done
done
verdict "night -m, one byte lost" "$why"
