# Without the rights to a file or its folder, status 3, and nothing is made.
. "$(dirname "$0")/common.sh"

cp "$program" ./ipl-program
program=$work/ipl-program
chmod 755 ipl-program
"$program" format file:5:chip >/dev/null || fail "no format"
: >said
: >noted
chmod 666 said noted
if [ "$(id -u)" -eq 0 ]; then
    command -v setpriv >/dev/null || skip "root has all rights, and there is no setpriv"
    nobody="setpriv --reuid=65534 --regid=65534 --clear-groups"
    $nobody true 2>/dev/null || skip "root has all rights, and setpriv fails"
else
    nobody=
fi

# As ends, as nobody.
ends_here() {
    wanted=$1
    note=$2
    shift 2
    $nobody "$program" "$@" >said 2>noted </dev/null
    is_end $? "$(cat noted)" "$*"
}

for mode in 000 444 222; do
    chmod $mode chip
    ends_here 3 "ipl: chip read failed" run file:5:chip
    ends_here 3 "ipl: chip write failed" run file:5:chip --format
    ends_here 3 "ipl: chip write failed" format file:5:chip
    ends_here 3 "ipl: chip write failed" trial file:5:chip --seed 7 --count 10
    ends_here 0 "" serial file:5:chip
done
# To be checked a file has to be read alone.
for mode in 000 222; do
    chmod $mode chip
    ends_here 3 "ipl: chip read failed" check file:5:chip
done
chmod 444 chip
ends_here 0 "" check file:5:chip
wants "it is checked" [ "$(cat said)" = "records 0" ]
mkdir closed
chmod 555 closed
ends_here 3 "ipl: chip write failed" format file:5:closed/chip
wants "nothing is made" [ -z "$(ls closed)" ]
# Who can't list the folder can use a file in it.
chmod 666 chip
mkdir hidden
cp chip hidden/chip
chmod 666 hidden/chip
chmod 711 hidden
[ "$(id -u)" -eq 0 ] || chmod 111 hidden
ends_here 0 "" run file:5:hidden/chip
chmod 755 hidden
echo "three modes of a file, a folder that can't be written, and one that can't be listed"
