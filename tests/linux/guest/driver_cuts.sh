# driver_cuts.sh test | driver NOTED | unsynced NOTED: ports/c/driver_test.c over block2mtd, whose writes stand in the kernel's cache up to a barrier.
virtio
insmod /modules/block2mtd.ko block2mtd=/dev/vda,131072
chip=mtd:/dev/mtd$(part vda)
case $1 in
test) try_driver "$chip" --places 12 test 3 ;;
driver) try_driver "$chip" --places 12 cut 3 "$2" ;;
unsynced) try_driver "$chip" --places 12 --lost-barriers cut 3 "$2" ;;
esac
