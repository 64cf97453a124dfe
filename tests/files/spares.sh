# Chips with places to spare, on the fewest places that have room for them: one unit each. They are formatted and run over,
# listed, run over again and killed, as any other; a run goes by what the chip says, and not by its size.
. "$(dirname "$0")/common.sh"

# Commits of one byte, which fill the log of the unit twice, so that it is merged three times.
for value in $(seq 1 40); do
    commit_of "$(printf %02x "$value")"
done >forty

# A chip of so many places, of which so many are spare: tries SPARES PLACES
tries() {
    chip=file:$2:chip$1
    ends 0 "" format "$chip" --spares "$1"
    [ "$(cat said)" = ok ] || fail "$chip: a format says $(cat said)"
    is_chip "chip$1" "$2"
    lists "$chip" end
    printf 'begin 0\nput 0 959 61\nput 0 960 62\nmerge 0\nmerge 1\ncommit 0\nrestart\nget 0 959\nlist 0 960\n' >script
    ends 0 "" run "$chip" <script
    [ "$(cat said)" = "ok
ok
err 3 badname
ok
err 11 badunit
ok
ok
err 6 notopen
err 3 badname" ] || fail "$chip: $(tr '\n' ';' <said)"
    lists "$chip" "959 61
end"
    ends 0 "" run "$chip" --frames 2 <forty
    [ "$(grep -cx ok said)" -eq 120 ] || fail "$chip: $(grep -cx ok said) commands of 120 are done"
    lists "$chip" "5 28
959 61
end"
    kills "$chip"
}

# Kills a run once some commits were answered: what is found then is what was answered last, or the next one.
kills() {
    for value in $(seq 41 250); do
        commit_of "$(printf %02x "$value")"
    done >script
    : >replies
    "$program" run "$1" <script >replies 2>/dev/null &
    run=$!
    tries=0
    until [ "$(grep -c ok replies)" -ge 60 ]; do
        wants "a run answers in time" [ $((tries += 1)) -lt 5000 ]
    done
    kill -KILL $run
    wait $run 2>/dev/null
    done=$((40 + $(grep -c ok replies) / 3))
    printf 'begin 0\nget 0 5\n' | ends 0 "" run "$1" || exit 1
    found=$(tail -n 1 said)
    [ "$found" = "$(printf 'value %02x' $done)" ] || [ "$found" = "$(printf 'value %02x' $((done + 1)))" ] ||
        fail "$1: after $done commits $found"
}

tries 0 5
tries 1 6
tries 64 69

# A place too few for a unit, and words that are refused: nothing that is there is changed.
cksum chip0 chip1 chip64 >before
ends 4 "ipl: geometry" format file:5:chip0 --spares 1
ends 4 "ipl: geometry" format file:6:chip1 --spares 2
# A file that isn't there is made for a number of places that a chip may have, as each run does it; it stays erased.
ends 4 "ipl: geometry" format file:68:chip68 --spares 64
is_chip chip68 68
ends 4 "ipl: not formatted" run file:68:chip68
for words in "--spares" "--spares x" "--spares 65" "--spares -1" "--spares 1 --spares 1" "--spares 1 --format"; do
    ends 2 "ipl: bad command line" format file:6:chip1 $words
done
for word in run serial; do
    ends 2 "ipl: bad command line" $word file:6:chip1 --spares 1
done
ends 2 "ipl: bad command line" run file:6:chip1 --format --spares 1
ends 2 "ipl: bad command line" trial file:6:chip1 --seed 1 --count 1 --spares 1
cksum chip0 chip1 chip64 >after
wants "the chips are as they were" cmp -s before after

# A copy with a place more, of bytes FF, has one more to spare: its names are as before.
{
    cat chip0
    head -c 131072 /dev/zero | tr '\000' '\377'
} >grown
ends 0 "" run file:5:chip0 <forty
echo "list 0 959" >list
ends 0 "" run file:5:chip0 <list
mv said before
ends 0 "" run file:6:grown <forty
ends 0 "" run file:6:grown <list
wants "the records of the copy" cmp -s before said
echo "list 0 960" >list
ends 0 "" run file:6:grown <list
[ "$(cat said)" = "err 3 badname" ] || fail "a copy with a place more: $(cat said)"

# Formatted by a run the chip has none to spare, so that it has one unit more.
echo "list 0 1919" >list
ends 3 "ipl: chip read failed" run file:7:chip1 <list
ends 0 "" run file:6:chip1 --format <list
ends 0 "" run file:6:chip1 <list
[ "$(cat said)" = end ] || fail "formatted anew: $(cat said)"
ends 0 "" format file:6:chip1 --spares 1
ends 0 "" run file:6:chip1 <list
[ "$(cat said)" = "err 3 badname" ] || fail "formatted with one to spare: $(cat said)"
echo "chips with 0, 1 and 64 places to spare, listed, run over and killed; 13 refusals, a longer copy, and formats of other numbers"
