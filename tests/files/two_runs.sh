# One run has a file at a time: another one gets status 3, and neither reads nor writes it.
. "$(dirname "$0")/common.sh"

"$program" format file:5:chip >/dev/null || fail "no format"
ln -s chip link
mkfifo script
"$program" run file:5:chip <script >first &
run=$!
exec 3>script
commit_of 61 >&3
tries=0
until [ "$(grep -c ok first)" -eq 3 ]; do
    wants "the first run answers in time" [ $((tries += 1)) -lt 5000 ]
done
cp chip before
for name in chip link ./chip "$work/chip"; do
    commit_of 62 | ends 3 "ipl: chip read failed" run "file:5:$name" || exit 1
    ends 3 "ipl: chip write failed" format "file:5:$name"
    commit_of 62 | ends 3 "ipl: chip write failed" run "file:5:$name" --format || exit 1
    ends 3 "ipl: chip read failed" run "file:6:$name"
    wants "the file is as it was" cmp -s chip before
done
echo "list 0 959" >&3
exec 3>&-
wait $run || fail "the first run ended with $?"
wants "the first run goes on" [ "$(tail -n 2 first | head -n 1)" = "5 61" ]
lists file:5:chip "5 61
end"

# Two that make a file at the same time: one does, and the other has it afterwards or is refused.
refused=0
for round in 1 2 3 4 5 6 7 8 9 10 11 12 13 14 15 16 17 18 19 20; do
    rm -f made
    "$program" format file:40:made >one 2>/dev/null &
    one=$!
    "$program" format file:40:made >two 2>/dev/null &
    two=$!
    wait $one
    first=$?
    wait $two
    second=$?
    case $first-$second in
    0-0) ;;
    0-3 | 3-0) refused=$((refused + 1)) ;;
    *) fail "two formats ended with $first and $second" ;;
    esac
    is_chip made 40
    wants "nothing else is left" [ ! -e made.ipl-new ]
    lists file:40:made end
done
echo "a second run under four names, and 20 pairs that made a file ($refused of the 40 formats were refused)"
