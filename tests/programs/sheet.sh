# Sourced by run: the program `sheet` writes, reads and checks correction sheets. What
# it must answer is what the independent implementation answers, and for the sample
# also what is put down here.
sheet=samples/night.sheet
night=(60 $issues $log)

# Usage, and files that cannot be read.
fails 2 "sheet, no arguments" sheet
fails 2 "sheet, a word that there is not" sheet show $sheet
fails 2 "sheet write, no log" sheet write 60 $issues
fails 2 "sheet read, no file" sheet read
fails 2 "sheet read, two files" sheet read $sheet $sheet
fails 2 "sheet check, no log" sheet check $sheet 60 $issues
fails 2 "sheet check, the file alone" sheet check $sheet
fails 2 "sheet write -m alone" sheet write -m 60 $issues
fails 2 "sheet write, an option that there is not" sheet write -x 60 $issues $log
fails 2 "sheet read, an option that there is not" sheet read -m
fails 2 "sheet check, an option that there is not" sheet check -x $sheet "${night[@]}"
fails 1 "sheet write, the log is missing" sheet write 60 $issues "$folder/none"
fails 1 "sheet write, the second log is missing" sheet write "${night[@]}" "$folder/none"
fails 1 "sheet write, the issues are missing" sheet write 60 "$folder/none" $log
fails 1 "sheet write, the log is a folder" sheet write 60 $issues "$folder"
fails 1 "sheet read, the file is missing" sheet read "$folder/none"
fails 1 "sheet read, the file is a folder" sheet read "$folder"
fails 1 "sheet check, the file is missing" sheet check "$folder/none" "${night[@]}"
fails 1 "sheet check, the log is missing" sheet check $sheet 60 $issues "$folder/none"
fails 1 "sheet read, a closed standard input" sheet read - <&-
fails 1 "sheet write, the log is a closed standard input" sheet write 60 $issues - <&-
for prn in 0 6 64 60x ''; do
    fails 1 "sheet write, PRN '$prn'" sheet write "$prn" $issues $log
    fails 1 "sheet check, PRN '$prn'" sheet check $sheet "$prn" $issues $log
done
printf 'C19 1024\n' >"$folder/issues"
fails 1 "sheet write, issues: 1024" sheet write 60 "$folder/issues" $log
full "sheet write" sheet write "${night[@]}"
full "sheet read" sheet read $sheet
full "sheet check" sheet check $sheet "${night[@]}"

# Writing. A refused list has a line on standard error and no byte on standard output.
prints $sheet "sheet write, the sample" sheet write "${night[@]}"
prints $sheet "sheet write, the log on standard input" sheet write 60 $issues - <$log
prints $sheet "sheet write, issues and log from pipes" sheet write 60 <(cat $issues) <(cat $log)
reference sheet write "${whole[@]}"
prints "$folder/wanted" "sheet write, the sample of two logs" sheet write "${whole[@]}"
fails 1 "sheet write, an empty log: no mask" sheet write 60 $issues "$folder/empty"
fails 1 "sheet write, another PRN: no mask" sheet write 59 $issues $log
why=
says_one_line 20
verdict "sheet write, another PRN: the number is said" "$why"
reference sheet write 60 "$folder/empty" $log
prints "$folder/wanted" "sheet write, no issues: no rows" sheet write 60 "$folder/empty" $log

# Reading.
prints samples/night-sheet.txt "sheet read, the sample" sheet read $sheet
prints samples/night-sheet.txt "sheet read, standard input" sheet read - <$sheet
prints samples/night-sheet.txt "sheet read, a pipe" sheet read - < <(cat $sheet)

# answers LINE NAME ARGS..: status and standard output are those of the independent
# implementation; the first line is LINE.
answers() {
    local line=$1 name=$2 why=
    shift 2
    reference sheet "$@"
    call sheet "$@"
    status_is $due
    says_nothing
    writes "$folder/wanted"
    [ "$(head -n 1 "$folder/out")" = "$line" ] || why="$why not '$line';"
    verdict "$name" "$why"
}

# The sample: its bytes, its rows, and where its end stands.
size=$(($(wc -c <$sheet))) count=$((($(wc -c <$sheet) - 11) / 24)) end=$(($(wc -c <$sheet) - 3))

# number N: two bytes, high byte first. at OFFSET HEX: the sample with one byte changed.
number() { printf "\\x$(printf %02x $(($1 / 256)))\\x$(printf %02x $(($1 % 256)))"; }
at() { head -c "$1" $sheet && printf "\\x$2" && tail -c +$(($1 + 2)) $sheet; }
# rows N..: the sample's header with as many rows, those rows of it, from 1, and the end.
rows() {
    local n
    head -c 6 $sheet
    number $#
    for n; do tail -c +$((8 + 24 * (n - 1) + 1)) $sheet | head -c 24; done
    printf '\377\0\0'
}
answers 'refused 23 at 0' "sheet read, an empty file" read "$folder/empty"
for bytes in 7 8 31 32 1000 $((end - 1)) $end $((size - 1)); do
    head -c $bytes $sheet >"$folder/sheet"
    answers "refused 23 at $((bytes < 8 ? 0 : bytes >= end ? end : 8 + (bytes - 8) / 24 * 24))" \
        "sheet read, cut after $bytes bytes" read "$folder/sheet"
done
{ cat $sheet && printf x; } >"$folder/sheet"
answers "refused 23 at $size" "sheet read, a byte behind it" read "$folder/sheet"
{ cat $sheet && head -c 100000 /dev/zero; } >"$folder/sheet"
answers "refused 23 at $size" "sheet read, much behind it" read "$folder/sheet"
answers 'refused 23 at 0' "sheet read, a log" read $log
at 3 06 >"$folder/sheet"
answers 'refused 23 at 0' "sheet read, PRN 6" read "$folder/sheet"
at 7 $(printf %02x $((count - 1))) >"$folder/sheet"
answers "refused 23 at $((end - 24))" "sheet read, a row too many" read "$folder/sheet"
at 7 $(printf %02x $((count + 1))) >"$folder/sheet"
answers "refused 23 at $end" "sheet read, a row too few" read "$folder/sheet"
rows 1 3 2 >"$folder/sheet"
answers 'refused 23 at 56' "sheet read, slots that do not rise" read "$folder/sheet"
why=
for ((i = 0; i < size; i += 37)); do
    at $i ff >"$folder/sheet"
    reference sheet read "$folder/sheet"
    bare sheet read "$folder/sheet" 2>&1 | cmp -s - "$folder/wanted" || why="$why $i;"
done
verdict "sheet read, one byte FF" "$why"

# Checking.
answers 'accepted left-out 0' "sheet check, the sample" check $sheet "${night[@]}"
cp "$folder/out" "$folder/line"
prints "$folder/line" "sheet check, the sheet on standard input" sheet check - "${night[@]}" <$sheet
rows $(seq 1 $((count - 3))) >"$folder/sheet"
answers 'accepted left-out 3' "sheet check, three rows left out" check "$folder/sheet" "${night[@]}"
rows >"$folder/sheet"
answers "accepted left-out $count" "sheet check, no rows" check "$folder/sheet" "${night[@]}"
rows $(seq $count -1 1) >"$folder/sheet"
answers 'accepted left-out 0' "sheet check, rows in falling order" check "$folder/sheet" "${night[@]}"
answers 'refused 23 at 32' "sheet read, rows in falling order" read "$folder/sheet"
rows 7 3 3 >"$folder/sheet"
answers 'refused 26 row 3' "sheet check, a row twice" check "$folder/sheet" "${night[@]}"
at 55 01 >"$folder/sheet"
answers 'refused 25 row 2' "sheet check, another URA" check "$folder/sheet" "${night[@]}"
at 11 01 >"$folder/sheet"
answers 'refused 24 row 1' "sheet check, a slot that has no row" check "$folder/sheet" "${night[@]}"
at 3 3b >"$folder/sheet"
answers 'refused 27' "sheet check, PRN 59" check "$folder/sheet" "${night[@]}"
at $end 00 >"$folder/sheet"
answers "refused 23 at $end" "sheet check, no end" check "$folder/sheet" "${night[@]}"
answers 'refused 27' "sheet check, another night" check $sheet "${whole[@]}"
answers 'refused 20' "sheet check, no mask" check $sheet 60 $issues "$folder/empty"
answers 'refused 24 row 1' "sheet check, no issues" check $sheet 60 "$folder/empty" $log
head -c $((125 * 400)) $log >"$folder/cut"
reference sheet check $sheet 60 $issues "$folder/cut"
answers "$(cat "$folder/wanted")" "sheet check, a part of the log" check $sheet 60 $issues "$folder/cut"

# Mixed logs: the frames as text; a bad line costs itself alone.
$emulator "$folder/sheet_ref" make 12 "$folder/log" "$folder/issues" || exit 2
{ echo '# frames' && od -An -v -tx1 -w125 "$folder/log" | tr -d ' ' | sed 's/^/B2B /' && echo 'no record'; } >"$folder/mixed"
reference sheet write 60 "$folder/issues" "$folder/log"
cp "$folder/wanted" "$folder/sheet"
prints "$folder/sheet" "sheet write -m, the frames as text" sheet write -m 60 "$folder/issues" "$folder/mixed"
echo 'accepted left-out 0' >"$folder/line"
prints "$folder/line" "sheet check -m, the frames as text" sheet check -m "$folder/sheet" 60 "$folder/issues" "$folder/mixed"
prints "$folder/line" "sheet check -m, the sheet on standard input" sheet check -m - 60 "$folder/issues" "$folder/mixed" <"$folder/sheet"
echo 'refused 24 row 1' >"$folder/line"
why=
call sheet check -m "$folder/sheet" 60 none "$folder/mixed"
status_is 3
says_nothing
writes "$folder/line"
verdict "sheet check -m, no issues" "$why"
fails 1 "sheet write, frames as text without -m: no mask" sheet write 60 "$folder/issues" "$folder/mixed"
fails 1 "sheet write -m, frames as bytes: no mask" sheet write -m 60 "$folder/issues" "$folder/log"

# As many rows as a sheet may have: written, read back and accepted.
for count in 0 1 63 64 65 173 174; do
    $emulator "$folder/sheet_ref" make $count "$folder/log" "$folder/issues" || exit 2
    reference sheet write 60 "$folder/issues" "$folder/log"
    prints "$folder/wanted" "sheet write, $count rows" sheet write 60 "$folder/issues" "$folder/log"
    cp "$folder/wanted" "$folder/sheet"
    answers "prn 60 ssr 2 iodp 9 rows $count" "sheet read, $count rows" read "$folder/sheet"
    answers 'accepted left-out 0' "sheet check, $count rows" check "$folder/sheet" 60 "$folder/issues" "$folder/log"
done
printf '\x01\x00\x05\x3c\x02\x09\x00\xaf' >"$folder/sheet"
answers 'refused 23 at 0' "sheet read, 175 rows" read "$folder/sheet"
