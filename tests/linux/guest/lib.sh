# What the scripts of the guest share.
need() { for module in "$@"; do insmod "/modules/$module.ko" || echo "guest: no $module"; done; }
# The number of the first part with this name.
part() { grep "$1" /proc/mtd | head -n 1 | cut -d: -f1 | tr -dc 0-9; }
# sim WORDS..: 1,024 blocks of 64 pages of 2,048 bytes, in D; of what wants more words of the id, sim_of ID WORDS..
sim() { sim_of 0x20,0xf1,0x00,0x15 "$@"; }
sim_of() {
    id=$1
    shift
    insmod "/modules/${SIM:-nandsim}.ko" "id_bytes=$id" "$@" || echo "guest: no simulator"
    D=/dev/mtd$(part 'NAND simulator')
}
unsim() { rmmod "${SIM:-nandsim}"; }
virtio() {
    need virtio_ring virtio virtio_pci_legacy_dev virtio_pci_modern_dev virtio_pci virtio_blk
    while [ ! -b /dev/vda ]; do sleep 1; done
}
# ubi BLOCKS: a volume over the part D, in U.
ubi_on() {
    ubiattach -p "$D" >/dev/null && ubimkvol /dev/ubi0 -N records -m >/dev/null
    U=/dev/ubi0_0
}
ubi_off() { ubidetach -d 0 >/dev/null; }
