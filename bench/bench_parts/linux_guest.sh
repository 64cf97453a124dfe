# What the machine of bench/linux runs: each way to keep the records over a part that is new, and what the part was asked in the commits alone.
# usage: linux_guest.sh NAMES COUNT
names=$1
count=$2
SIM=nandkeep
counts='n_prog n_quarter n_erase n_read'
zero() { for name in $counts; do echo 0 >"/sys/module/nandkeep/parameters/$name"; done; }
# measured ROW COMMAND..: with what is still to be written.
measured() {
    row=$1
    shift
    sync
    zero
    "$@" >/tmp/said || cat /tmp/said
    sync
    sleep 1
    echo "row $row | $(for name in $counts; do echo -n "$(cat "/sys/module/nandkeep/parameters/$name") "; done)| $(cat /tmp/said)"
}
ipl() { # ipl ROW BLOCKS WORDS..
    row=$1
    sim keep=0x10000000 fresh=1 overridesize="$2"
    shift 2
    linux_commits ipl "mtd:$D" --places 50 "$@" fill "$names" 0 >/dev/null
    measured "$row" linux_commits ipl "mtd:$D" --places 50 "$@" run "$names" "$count"
    unsim
}
ubifs_on() {
    sim keep=0x10000000 fresh=1 overridesize=6
    ubi_on
    mount -t ubifs "$U" /mnt
}
ubifs_off() {
    umount /mnt
    ubi_off
    unsim
}
need ubi crc16 zstd_compress zstd ubifs mtd_blkdevs mtdblock jffs2
ipl 'ipl, `quarters`, one by one' 6 --mapping quarters --no-joins
ipl 'ipl, `quarters`' 6 --mapping quarters
ipl 'ipl, `rising-quarters`' 7 --mapping rising-quarters
ipl 'ipl, `pages`' 8 --mapping pages
ipl 'ipl, `rising-pages`' 8 --mapping rising-pages
sim keep=0x10000000 fresh=1 overridesize=9
ubi_on
linux_commits ipl "ubi:$U" --places 50 fill "$names" 0 >/dev/null
measured 'ipl over UBI' linux_commits ipl "ubi:$U" --places 50 run "$names" "$count"
ubi_off
unsim
for how in in-place appended; do
    ubifs_on
    [ $how = appended ] || linux_commits file /mnt/records $how fill "$names" 0 >/dev/null
    measured "a file on UBIFS, $(echo $how | tr - ' ')" linux_commits file /mnt/records $how run "$names" "$count"
    ubifs_off
done
for how in tuned plain; do
    ubifs_on
    if linux_commits sqlite /mnt/records $how fill "$names" 0 >/tmp/said; then
        measured "SQLite $([ $how = tuned ] && echo tuned || echo 'as it comes') on UBIFS" linux_commits sqlite /mnt/records $how run "$names" "$count"
    fi
    ubifs_off
done
for how in in-place appended; do
    sim keep=0x10000000 fresh=1 overridesize=6
    mount -t jffs2 "/dev/mtdblock${D#/dev/mtd}" /mnt
    [ $how = appended ] || linux_commits file /mnt/records $how fill "$names" 0 >/dev/null
    sleep 2
    measured "a file on JFFS2, $(echo $how | tr - ' ')" linux_commits file /mnt/records $how run "$names" "$count"
    umount /mnt
    unsim
done
