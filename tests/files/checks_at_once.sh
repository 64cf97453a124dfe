# Checks of one file run side by side, and keep a run out as a run keeps them out.
. "$(dirname "$0")/common.sh"

"$program" format file:40:chip >/dev/null || fail "no format"
commit_of 61 | ends 0 "" run file:40:chip || exit 1

# A check that can't say its reply, since the pipe is full, has the file until somebody reads there.
mkfifo pipe
exec 3<>pipe
timeout 10 dd if=/dev/zero bs=65536 count=1 2>/dev/null >&3
begins_check() {
    timeout 60 "$program" check file:40:chip >&3 2>first &
    check=$!
    sleep 0.2
}
begins_check
tries=0
until ! "$program" run file:40:chip </dev/null >said 2>noted; do
    wants "the check begins in time" [ $((tries += 1)) -lt 50 ]
    # The run may have kept the check out.
    if [ -s first ]; then
        wait $check
        begins_check
    else
        sleep 0.2
    fi
done
wants "a run that is kept out says so" [ "$(cat noted)" = "ipl: chip read failed" ]
cp chip before
for round in 1 2 3; do
    ends 0 "" check file:40:chip
    wants "a check beside a check counts" [ "$(cat said)" = "records 1" ]
done
commit_of 62 | ends 3 "ipl: chip read failed" run file:40:chip || exit 1
commit_of 62 | ends 3 "ipl: chip write failed" run file:40:chip --format || exit 1
ends 3 "ipl: chip write failed" format file:40:chip
ends 3 "ipl: chip write failed" trial file:40:chip --seed 7 --count 10
commit_of 62 | ends 0 "" serial file:40:chip || exit 1
wants "what is kept out writes nothing" cmp -s before chip
kill -0 $check || fail "the check didn't wait: $(cat first)"
timeout 10 dd bs=65536 count=1 iflag=fullblock 2>/dev/null <&3 >/dev/null
wait $check || fail "the check ended with $?: $(cat first)"
read -r reply <&3
wants "the check that waited says its reply" [ "$reply" = "records 1" ]
exec 3>&-

# A run keeps checks out.
mkfifo script
"$program" run file:40:chip <script >replies &
run=$!
exec 3>script
commit_of 62 >&3
tries=0
until [ "$(grep -c ok replies)" -eq 3 ]; do
    wants "the run answers in time" [ $((tries += 1)) -lt 5000 ]
done
ends 3 "ipl: chip read failed" check file:40:chip
exec 3>&-
wait $run || fail "the run ended with $?"

for round in 1 2 3 4 5 6 7 8 9 10; do
    checks=
    for each in 1 2 3 4; do
        "$program" check file:40:chip >"said_$each" 2>/dev/null &
        checks="$checks $!"
    done
    for check in $checks; do
        wait "$check" || fail "one of four checks at once ended with $?"
    done
    wants "four checks count the same" [ "$(cat said_* | sort -u)" = "records 1" ]
done
echo "a check that waits, with three checks and five other words beside it, a run, and ten times four checks at once"
