# What a format left that was killed is replaced; what can't be such a leftover stays as it is.
. "$(dirname "$0")/common.sh"

"$program" format file:5:formatted >/dev/null || fail "no format"
for bytes in 0 1000 655360 900000; do
    rm -f chip
    head -c $bytes /dev/zero >chip.ipl-new
    ends 0 "" format file:5:chip
    wants "over a leftover of $bytes bytes" cmp -s chip formatted
    wants "no leftover of $bytes bytes" [ ! -e chip.ipl-new ]
done

# A file that is there is opened, whatever stands beside it.
echo other >chip.ipl-new
lists file:5:chip end
wants "it stays beside a file that is there" [ "$(cat chip.ipl-new)" = other ]

rm -f chip chip.ipl-new
echo elsewhere >target
ln -s target chip.ipl-new
ends 3 "ipl: chip write failed" format file:5:chip
wants "what a link leads to stays" [ "$(cat target)" = elsewhere ]
wants "no file is made" [ ! -e chip ]
rm chip.ipl-new
ln -s nowhere chip.ipl-new
ends 3 "ipl: chip write failed" format file:5:chip
wants "no file is made through a link" [ ! -e nowhere ]
rm chip.ipl-new
mkdir chip.ipl-new
ends 3 "ipl: chip write failed" format file:5:chip
wants "a folder stays" [ -d chip.ipl-new ]
rmdir chip.ipl-new

if command -v flock >/dev/null; then
    echo other >chip.ipl-new
    flock chip.ipl-new sleep 5 &
    holder=$!
    until ! flock -n chip.ipl-new true; do :; done
    ends 3 "ipl: chip write failed" format file:5:chip
    wants "what another is making stays" [ "$(cat chip.ipl-new)" = other ]
    kill $holder
    wait $holder 2>/dev/null
fi
echo "leftovers of four lengths, and links, a folder and a locked file of that name"
