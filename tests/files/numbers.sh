# A run has room for as many committed numbers as its words say: with few it renews the status place earlier and keeps the
# same records, and a chip on which more are committed isn't opened, and stays as it is.
. "$(dirname "$0")/common.sh"

# So many commits of a record each, from one name on.
commits() {
    awk -v from="$1" -v count="$2" 'BEGIN {
        for (i = from; i < from + count; i++) printf "begin 0\nput 0 %d %04x\ncommit 0\n", i % 960, i
    }'
}

"$program" format file:5:chip >/dev/null || fail "no format"
commits 0 200 | "$program" run file:5:chip >said || fail "no run"
wants "each command is answered" [ "$(grep -c '^ok$' said)" -eq 600 ]
cp chip before
for few in 120 199; do
    echo "list 0 959" | ends 4 "ipl: too many numbers" run file:5:chip --numbers $few || exit 1
    wants "the file is as it was" cmp -s chip before
done
echo "list 0 959" | "$program" run file:5:chip --numbers 200 >listed || fail "no room for 200"
wants "200 records" [ "$(wc -l <listed)" -eq 201 ]
# The opening kept the numbers that a log has, so few have room now.
echo "list 0 959" | "$program" run file:5:chip --numbers 120 >again || fail "no room for those that are kept"
wants "the same records" cmp -s listed again

"$program" format file:5:other >/dev/null || fail "no format"
commits 0 1000 | "$program" run file:5:other --numbers 120 >few || fail "no run with few"
"$program" format file:5:third >/dev/null || fail "no format"
commits 0 1000 | "$program" run file:5:third >many || fail "no run with all"
wants "the same answers" cmp -s few many
for chip in other third; do
    echo "list 0 959" | "$program" run file:5:$chip --numbers 15300 >"records_$chip" || fail "no records"
done
wants "the same records, with few and with all" cmp -s records_other records_third
echo "numbers that have no room, and few that do"
