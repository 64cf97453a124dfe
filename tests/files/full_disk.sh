# Where there is no room, no file is made and nothing is left.
. "$(dirname "$0")/common.sh"

if [ "${3:-}" != apart ]; then
    for flags in "-m" "-rm"; do
        if unshare $flags true 2>/dev/null; then
            unshare $flags sh "$here/full_disk.sh" "$program" "$launcher" apart
            exit
        fi
    done
    skip "no file system can be mounted here"
fi
mkdir disk
mount -t tmpfs -o size=1m none disk 2>/dev/null || skip "no file system can be mounted here"
ends 3 "ipl: chip write failed" format file:16:disk/chip
ends 3 "ipl: chip write failed" run file:16:disk/chip --format
ends 3 "ipl: chip read failed" run file:16:disk/chip
wants "nothing is left" [ -z "$(ls -A disk)" ]
ends 0 "" format file:5:disk/chip
head -c 1000000 /dev/zero >disk/rest 2>/dev/null
commit_of 61 | ends 0 "" run file:5:disk/chip || exit 1
lists file:5:disk/chip "5 61
end"
umount disk
echo "a format and runs on a disk of 1 MB, and a commit with no room left"
