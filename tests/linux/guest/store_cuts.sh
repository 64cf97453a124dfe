# store_cuts.sh KIND FRESH CUT OPTIONS..: what the store's last run left is judged, and it goes on until the machine is killed. KIND is `blocks`,
# over /dev/vda; `nand`, over a part that stands in the machine's memory; or `ubi`, over that. With FRESH 1 it is formatted first. With CUT, the power
# goes in that write of the part.
kind=$1
fresh=$2
cut=$3
shift 3
case $kind in
blocks)
    virtio
    insmod /modules/block2mtd.ko block2mtd=/dev/vda,131072
    chip=mtd:/dev/mtd$(part vda)
    ;;
nand | ubi)
    SIM=nandkeep
    sim keep=0x10000000 overridesize=7 fresh="$fresh"
    chip=mtd:$D
    ;;
esac
if [ "$kind" = ubi ]; then
    need ubi
    chip=ubi:/dev/ubi0_0
    if [ "$fresh" = 1 ]; then ubi_on; else ubiattach -p "$D" >/dev/null; fi
fi
[ "$fresh" = 0 ] || try_log "$chip" --places 8 "$@" format 0
[ "$cut" = 0 ] || echo "$cut" >/sys/module/nandkeep/parameters/cut
try_log "$chip" --places 8 "$@" log 2000 5 100000 note
