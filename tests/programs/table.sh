# Sourced by run: several correction satellites at once (02, CR 14). The example
# firmware in C, and night of several PRNs.

# ---- examples/firmware.c ----

link_with "$folder"
$cc "${flags[@]}" $link -o "$folder/firmware" "$root/examples/firmware.c" "$archive" || exit 2
loud_if_standin
firmware() { $emulator "$folder/firmware" "$@"; }

# The beginning of the sample, which is not torn: 65 whole frames.
head -c $((125 * 65)) samples/three.log >"$folder/whole"
head -c 60000 $log >"$folder/frames"

# reckons NAME PRNS ISSUES LOG: the firmware prints, in its own lines, what night is to
# print of several PRNs: the frames, the refusals, and how many rows each PRN has.
reckons() {
    local name=$1 prns=$2 why=
    reference night --min-rows 0 "$prns" "$3" "$4"
    awk '$1 == "prn" { prn = $2 }
         prn == "" && $1 == "frames" { print }
         prn == "" && $1 == "refusal" { print $1, $2, $3 }
         $1 == "rows" { print "prn", prn, "rows", $2 }' "$folder/wanted" >"$folder/due"
    call_by firmware -i "$3" ${prns//,/ } <"$4"
    status_is 0
    says_nothing
    grep -v '^parity ' "$folder/out" | cmp -s - "$folder/due" || why="$why standard output is not as it should be;"
    verdict "firmware, $name" "$why"
}
reckons "three PRNs" 59,60,61 samples/three-issues.txt "$folder/whole"
cp "$folder/out" "$folder/lines"
reckons "three PRNs in another order" 61,59,60 samples/three-issues.txt "$folder/whole"
reckons "four PRNs, one of which is not heard" 1,59,60,61 samples/three-issues.txt "$folder/whole"
reckons "two PRNs of three" 60,61 samples/three-issues.txt "$folder/whole"
reckons "two PRNs, one of which sends a few frames" 59,60 $issues "$folder/frames"
why=
call_by firmware -i samples/three-issues.txt <"$folder/whole"
status_is 0
writes "$folder/lines"
verdict "firmware, the PRNs that it has by itself" "$why"
why=
call_by firmware -i samples/three-issues.txt < <(cat "$folder/whole")
status_is 0
writes "$folder/lines"
verdict "firmware, frames from a pipe" "$why"
why=
call_by firmware 59 60 61 <"$folder/whole"
status_is 0
sed 's/ rows .*/ rows 0/' "$folder/lines" | cmp -s - "$folder/out" || why="$why there are rows without issues;"
verdict "firmware, no issues" "$why"
why=
call_by firmware </dev/null
status_is 0
[ "$(head -n 1 "$folder/out")" = "frames 0 taken 0 refused 0" ] || why="$why the first line is not as it should be;"
verdict "firmware, no frames" "$why"

# stops STATUS NAME ARGS..: the status, one line on standard error, and nothing else.
stops() {
    local wanted=$1 name=$2 why=
    shift 2
    call_by firmware "$@"
    status_is "$wanted"
    says_one_line '^firmware: .*: .'
    writes_nothing
    verdict "firmware, $name" "$why"
}
for bytes in 1 124 126; do
    head -c $bytes "$folder/whole" >"$folder/cut"
    stops 1 "the input ends inside a frame, after $bytes bytes" <"$folder/cut"
done
stops 1 "a closed standard input" <&-
stops 1 "standard input is a folder" <"$folder"
for prn in 0 6 58 64 256 315 60x '' -1; do stops 2 "PRN '$prn'" "$prn" <"$folder/whole"; done
stops 2 "a PRN twice" 59 60 59 <"$folder/whole"
stops 2 "five PRNs" 1 2 3 4 5 <"$folder/whole"
stops 2 "-i alone" -i <"$folder/whole"
stops 1 "the issues are missing" -i "$folder/none" <"$folder/whole"
stops 1 "the issues are a folder" -i "$folder" <"$folder/whole"
for line in 'C19' 'C64 1' 'X01 1' 'C19 1024' 'C19 1 2'; do
    echo "$line" >"$folder/issues"
    stops 1 "issues: '$line'" -i "$folder/issues" <"$folder/whole"
done
why=
firmware <"$folder/whole" >/dev/full 2>"$folder/err"
status=$?
status_is 1
says_one_line '^firmware: standard output: .'
verdict "firmware, the disk is full" "$why"

# ---- night of several PRNs ----

three=(59,60,61 samples/three-issues.txt samples/three.log)
prints samples/three.expected "night, three PRNs" night "${three[@]}"
prints samples/three.expected "night, three PRNs, the log on standard input" night "${three[@]:0:2}" - <samples/three.log
prints samples/three.expected "night, three PRNs, issues and log from pipes" night 59,60,61 <(cat samples/three-issues.txt) <(cat samples/three.log)
agrees "night -e, three PRNs" -e "${three[@]}"
agrees "night --csv, three PRNs" --csv "${three[@]}"
agrees "night, three PRNs in another order" 61,59,60 "${three[@]:1}"
agrees "night, two PRNs of three" 60,61 "${three[@]:1}"
agrees "night, four PRNs, one of which is not heard" --min-rows 0 59,60,61,5 "${three[@]:1}"
agrees "night, two PRNs, one of which is not open to the log" --min-rows 0 1,62 "${three[@]:1}"
agrees "night, two PRNs, no issues" --min-rows 0 59,60 none "${three[@]:2}"
agrees "night, two PRNs, two logs" --min-rows 0 59,60 "${whole[@]:1}"
agrees "night, two PRNs, an empty log" --min-rows 0 59,60 $issues "$folder/empty"
agrees "night -m, two PRNs" -m --min-rows 0 59,60 none samples/mixed.txt
agrees "night -m --csv, two PRNs" -m --csv --min-rows 0 59,60 none samples/mixed.txt
head -c 10007 samples/three.log >"$folder/first"
tail -c +10008 samples/three.log >"$folder/second"
prints samples/three.expected "night, three PRNs, a frame split between two logs" night "${three[@]:0:2}" "$folder/first" "$folder/second"
full "night, three PRNs" night "${three[@]}"

# Of one PRN among several, mask, rows and absent satellites are those of it alone.
# section PRN: what is said of it, from its mask on; what is counted is left out.
section() { awk -v prn="$1" '$1 == "prn" { on = $2 == prn } on' | sed -n '/^mask /,$p' | grep -v '^epochs '; }
for prn in 59 60 61; do
    why=
    call night $prn "${three[@]:1}"
    section $prn <"$folder/out" >"$folder/alone"
    section $prn <samples/three.expected | cmp -s - "$folder/alone" || why=" it is another"
    [ -s "$folder/alone" ] || why="$why nothing is said of it"
    verdict "night, PRN $prn among three: the list is that of it alone" "$why"
done

# Limits hold for each: the lines stand at the end of each PRN's report.
unfit 'unfit refused 16 of 76 above 7 percent' "night --max-refused, three PRNs" --max-refused 7 "${three[@]}"
why=
[ "$(grep '^prn \|^unfit ' "$folder/out" | tr '\n' ';')" = \
    "prn 59;prn 60;unfit refused 6 of 76 above 7 percent;prn 61;unfit refused 16 of 76 above 7 percent;" ] || why=' others, or elsewhere'
verdict "night --max-refused, three PRNs: where the lines stand" "$why"
agrees "night --min-rows, three PRNs, the first is fit" --min-rows 22 "${three[@]}"
agrees "night, three PRNs, four limits" --max-gap 20 --max-age 30 --max-refused 5 --min-rows 23 "${three[@]}"
agrees "night --csv, three PRNs, four limits" --csv --max-gap 20 --max-age 30 --max-refused 5 --min-rows 23 "${three[@]}"
unfit 'unfit rows 0 below 1' "night, two PRNs, the second is not heard" 59,5 "${three[@]:1}"

# Words that are no list of PRNs: one to four of the ten, each once.
for prn in 59,59 60,61,60 59,6 0,59 59, ,59 , 59,,60 1,2,3,4,5 59,60x 59.60 '59 60' 59,4294967356 59,18446744073709551676 59,316; do
    fails 1 "night, PRN '$prn'" night "$prn" "${three[@]:1}"
done
