# What the system is asked, in which order: a lock and a sync before the first read, a name only for what is whole; and a
# read that a signal interrupts is made again.
. "$(dirname "$0")/common.sh"

command -v strace >/dev/null || skip "there is no strace"
: >empty
strace -o trace true 2>/dev/null || skip "strace can't trace here"

# The calls on the chip's file in the trace, each a word: the file has the number that the copy of the first open got.
calls_on() {
    sed -n "s/^\(flock\|fsync\|fdatasync\|read\|write\)($1[,)].*= [0-9].*/\1/p" trace | uniq | tr '\n' ' '
}
number_of_copy() {
    sed -n 's/^fcntl([0-9]*, F_DUPFD_CLOEXEC.*= \([0-9]*\)$/\1/p' trace | head -n 1
}

strace -o trace "$program" format file:5:chip >/dev/null || fail "no format"
made=$(sed -n 's/^\(openat([^,]*, "chip\.ipl-new", .*O_EXCL\|rename("chip\.ipl-new", "chip"\).*/\1/p; s/^fsync.*= 0$/fsync/p' trace |
    sed 's/.*O_EXCL/create/; s/^rename.*/rename/' | tr '\n' ' ')
case $made in
"create fsync rename fsync "*) ;;
*) fail "a format made its file by: $made" ;;
esac

strace -o trace "$program" run file:5:chip <empty >/dev/null || fail "no run"
number=$(number_of_copy)
wants "the file's number is 3 or more" [ "${number:-0}" -ge 3 ]
case $(calls_on "$number") in
"flock fsync read "*) ;;
*) fail "a run began with: $(calls_on "$number")" ;;
esac
strace -o trace "$program" run file:5:chip <&- >&- 2>/dev/null
number=$(number_of_copy)
wants "the file's number is 3 or more, with streams closed" [ "${number:-0}" -ge 3 ]

wanted=3 note="ipl: chip read failed"
strace -o trace -e inject=fsync:error=EIO:when=1 "$program" run file:5:chip <empty >/dev/null 2>noted
is_end $? "$(cat noted)" "a run whose first sync fails"
wants "and which reads nothing of the chip" [ -z "$(calls_on "$(number_of_copy)" | grep read)" ]

commit_of 61 >script
echo 'list 0 959' >>script
strace -o trace "$program" run file:5:chip <script >/dev/null || fail "no run"
first=$(sed -n '/^read(/p' trace | grep -n '^read(0,' | head -n 1 | cut -d : -f 1)
wanted=0 note=
for when in $first $((first + 1)) $first+2; do
    strace -o trace -e inject=read:error=EINTR:when=$when "$program" run file:5:chip <script >said 2>noted
    is_end $? "$(cat noted)" "a run whose reads ($when) are interrupted"
    wants "a run whose reads are interrupted says all" [ "$(cat said)" = "ok
ok
ok
5 61
end" ]
    wants "a read was interrupted" grep -q 'EINTR.*INJECTED' trace
done
echo "the order of calls in a format that makes its file and in a run, a sync that fails, and reads that are interrupted"
