# Each word over each kind of file that is no chip's: it ends in time, with its status, and the file stays what it is.
. "$(dirname "$0")/common.sh"

cat >limited <<END
#!/bin/sh
exec timeout 10 "$program" "\$@"
END
chmod +x limited
program=$work/limited
printf 'begin 0\nput 0 5 61\ncommit 0\n' >script

# Wants that a file can't be had, whatever is asked of it: refuses PATH
refuses() {
    ends 3 "ipl: chip read failed" run "file:5:$1" <script
    ends 3 "ipl: chip write failed" run "file:5:$1" --format <script
    ends 3 "ipl: chip write failed" format "file:5:$1"
    ends 3 "ipl: chip read failed" check "file:5:$1"
    ends 3 "ipl: chip write failed" trial "file:5:$1" --seed 7 --count 100
    ends 0 "" serial "file:5:$1" <script
    wants "$1: the view is said all the same" [ "$(tr '\n' ' ' <said)" = "0 1 2 " ]
}

mkfifo pipe
mkdir folder
: >empty
ln -s nowhere dangling
ln -s circle circle
kinds="pipe folder empty"
if command -v python3 >/dev/null; then
    python3 -c 'import socket; socket.socket(socket.AF_UNIX).bind("socket")' && kinds="$kinds socket"
fi
devices=
for device in null zero full tty ptmx; do
    [ -c /dev/$device ] && devices="$devices /dev/$device"
done
for kind in $kinds; do
    ln -s "$kind" "link_to_$kind"
done
for device in $devices; do
    ln -s "$device" "link_to_$(basename "$device")"
done
ls -l >before
for path in $kinds $devices dangling circle empty/chip link_to_*; do
    refuses "$path"
done
rm said noted
ls -l >after
sed -i '/ \(before\|after\|said\|noted\)$/d; /^total /d' before after
wants "all is as it was" cmp -s before after
[ ! -s empty ] || fail "the empty file isn't empty any more"

# One that isn't there is made by each word, and of its other name a pipe is a leftover, and a link to one isn't.
for words in "4 run" "0 run --format" "0 format" "4 check" "0 trial --seed 7 --count 100" "0 serial"; do
    set -- $words
    wanted=$1 word=$2
    shift 2
    rm -f chip chip.ipl-new
    mkfifo chip.ipl-new
    note=
    [ "$wanted" -eq 0 ] || note="ipl: not formatted"
    ends "$wanted" "$note" "$word" file:5:chip "$@" <script
    is_chip chip 5
    wants "$word: the pipe is replaced" [ ! -e chip.ipl-new ]
done
rm chip
ln -s pipe chip.ipl-new
refuses chip
wants "nothing is made beside a link" [ ! -e chip -a -L chip.ipl-new -a -p pipe ]
echo "six words over$(printf ' %s' $kinds $devices), links to them, links that lead nowhere, and a file that isn't there"
