# A run that is asked to close its chip leaves a mark where it gets to its end, and nowhere else; the next run ends the mark.
# Sessions that are open then are aborted.
[ ! -w /dev/shm ] || export TMPDIR=/dev/shm
. "$(dirname "$0")/common.sh"

# The letters of the marks on the chip: M for one that counts, m for one that is left over.
chip_map=$here/../../tools/chip_map
marks() {
    "$chip_map" --text chip >map || fail "there is no map"
    sed -n 's/^ *[0-9]* \([^ ]*\)$/\1/p' map | tr -cd Mm
}

# The place of unit 0 on the last map.
home() {
    sed -n 's/^place \([0-9]*\): data of unit 0,.*, current$/\1/p' map
}

# Two sessions stay open, one of which has filled two log sectors.
{
    commit_of 61 && commit_of 62
    printf 'begin 1\nput 1 6 63\nbegin 31\n'
    seq -f "put 31 %g $(printf %0216d 0)" 64 72
} >script
ends 0 "" format file:5:chip
cp chip formatted
ends 0 "" run --close file:5:chip --frames 2 <script
wants "each line is answered" [ "$(grep -cx ok said)" -eq 18 ]
wants "a run that closes leaves a mark" [ "$(marks)" = M ]
wants "it has unit 0" grep -q '^units whose erased log sectors are marked as clean: 0$' map
closed=$(home)
cp chip closed
(echo 'list 0 959' && commit_of 64) | ends 0 "" run file:5:chip || exit 1
wants "open sessions are aborted" [ "$(tr '\n' ' ' <said)" = "5 62 end ok ok ok " ]
wants "the next run ends the mark" [ "$(marks)" = m ]
wants "and its commit needs no merge" [ "$(home)" = "$closed" ]
commit_of 65 | ends 0 "" run file:5:chip || exit 1
wants "the mark doesn't count again" [ -z "$(marks | tr -d m)" ]
wants "and the next commit needs a merge" [ "$(home)" != "$closed" ]

# A signal comes before the end of the script, once all that was read is answered: ended_by SIGNAL STATUS CHIP MARKS
mkfifo pipe
ended_by() {
    cp "$3" chip
    : >said
    "$program" run file:5:chip --close <pipe >said 2>noted &
    run=$!
    exec 3>pipe
    (commit_of 66 && commit_of 67 && printf 'begin 1\nput 1 6 63\n') >&3
    tries=0
    until [ "$(grep -cx ok said)" -eq 8 ]; do
        wants "a run answers in time" [ $((tries += 1)) -lt 5000 ]
    done
    kill "-$1" $run
    wait $run 2>/dev/null
    wants "a run is ended by SIG$1" [ $? -eq "$2" ]
    exec 3>&-
    wants "a run over the $3 chip that SIG$1 ends leaves no mark" [ "$(marks)" = "$4" ]
    lists file:5:chip "5 67
end"
}
ended_by TERM 143 formatted ""
ended_by KILL 137 formatted ""
ended_by TERM 143 closed m
ended_by KILL 137 closed m

cp formatted chip
wanted=7 note="ipl: output failed"
"$program" run file:5:chip --close <script >/dev/full 2>noted
is_end $? "$(cat noted)" "a run that says to a full device"
"$program" run file:5:chip --close <script >&- 2>noted
is_end $? "$(cat noted)" "a run whose output is closed"
wants "a run that can't say its replies leaves no mark" [ -z "$(marks)" ]

cp closed chip
for words in "format file:5:chip" "run file:5:chip --close" "check file:5:chip" "serial file:5:chip"; do
    ends 2 "ipl: bad command line" $words --close </dev/null
    wants "$words --close touches no file" cmp -s chip closed
done
echo "a close with sessions open and what comes after it; 4 runs ended by signals and 2 without an output, which left no mark"
