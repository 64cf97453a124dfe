# Over a chip in a file the replies are the same with 2 frames as with 64, also where pages leave their frames with what
# open sessions wrote; and each run finds what the one before committed.
. "$(dirname "$0")/common.sh"

# Two sessions that put at each third page of two units, by turns, one of which aborts at the end of each round.
script_of() {
    for round in 1 2 3; do
        printf 'begin 0\nbegin 1\n'
        for page in 0 3 6 9 12 15 18 21 24 27; do
            printf 'put 0 %d %02x%02x\n' $((64 * page + round)) $round $page
            printf 'put 1 %d ff\n' $((64 * page + 40))
            printf 'get 0 %d\nget 1 %d\n' $((64 * page + round)) $((64 * page + round))
        done
        printf 'del 0 %d\nabort 1\ncommit 0\n' $((64 * round * 3 + round))
    done
    printf 'list 0 1919\n'
}
script_of >script

# What the records are at the end, by round and page.
for page in 0 3 6 9 12 15 18 21 24 27; do
    for round in 1 2 3; do
        [ $page -eq $((round * 3)) ] || printf '%d %02x%02x\n' $((64 * page + round)) $round $page
    done
done >wanted
echo end >>wanted

echo 'list 0 1919' >list
for frames in 2 3 16 64; do
    "$program" format file:6:chip$frames >/dev/null || fail "no format"
    ends 0 "" run file:6:chip$frames --frames $frames <script
    mv said said$frames
    wants "$frames frames: no command is refused" [ "$(grep -c err said$frames)" -eq 0 ]
    wants "$frames frames: what is committed is listed" [ "$(tail -n 28 said$frames)" = "$(cat wanted)" ]
    wants "$frames frames: the replies of 2 frames" cmp -s said2 said$frames
    for others in 2 64; do
        ends 0 "" run file:6:chip$frames --frames $others <list
        wants "$frames frames, and then $others: the same records" cmp -s said wanted
    done
done
echo "four numbers of frames over a script of two sessions and twenty pages, and two over each chip after it"
