# Killed at each of its writes, a run that opens a chip, merges a unit and commits leaves a chip that opens: with the records
# of before, or with the commit too where its sector was written.
. "$(dirname "$0")/common.sh"

command -v strace >/dev/null || skip "there is no strace"
strace -o trace true 2>/dev/null || skip "strace can't trace here"

# Records on five pages; the log of the run that wrote them is closed for the next one, so its first commit merges the unit.
{
    echo 'begin 0'
    for name in 5 64 128 192 256; do
        echo "put 0 $name $(printf '%0200d' $name)"
    done
    echo 'commit 0'
} >script
ends 0 "" run file:5:start --format <script
echo 'list 0 959' >list
ends 0 "" run file:5:start <list
mv said before
commit_of 61 >script
cp start chip
ends 0 "" run file:5:chip <script
ends 0 "" run file:5:chip <list
mv said after
wants "a commit is seen" [ "$(cksum <before)" != "$(cksum <after)" ]

old=0
new=0
merging=0
write=0
while [ $write -lt 100 ]; do
    write=$((write + 1))
    cp start chip
    strace -o trace -e trace=write -e inject=write:signal=KILL:when=$write "$program" run file:5:chip <script >said 2>noted
    # Without a kill all is said, and there are no more writes.
    [ $? -ne 0 ] || break
    erased=$(grep -c ' = 131072$' trace)
    ends 0 "" run file:5:chip <list
    if cmp -s said before; then
        old=$((old + 1))
        [ "$erased" -lt 2 ] || merging=$((merging + 1))
    else
        wants "killed at write $write the records are those of before or after" cmp -s said after
        new=$((new + 1))
    fi
done
# Two places are erased and two headers written, the number that is kept, five base sectors, a log sector and a commit
# sector; and three replies.
wants "each of 15 writes is tried" [ $write -eq 16 ]
wants "killed before the commit sector the old records are there" [ $old -ge 11 ]
wants "a run is killed while it merges" [ $merging -ge 6 ]
wants "killed after it the new ones are there" [ $new -ge 1 ]
echo "a run killed at each of $((write - 1)) writes, $merging of them in a merge or behind it: $old times the old records, $new times the new"
