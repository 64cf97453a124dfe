# cuts.sh ROUNDS: with each mapping the power is cut in the midst of writes, in commits, openings and closes, and all is judged after each cut.
SIM=nandkeep
for mapping in quarters rising-quarters pages rising-pages; do
    nosub=0
    case $mapping in *pages) nosub=1 ;; esac
    sim keep=0x10000000 fresh=1 soft=1 overridesize=7 nosub=$nosub
    chip="mtd:$D"
    # A torn erase isn't to be called worn.
    options="--mapping $mapping --fail-erases --places 8"
    # shellcheck disable=SC2086
    {
        try_log "$chip" $options format 0 >/dev/null 2>&1
        try_log "$chip" $options cuts 2000 11 "$1" 2>/dev/null | sed "s/^log: /cuts $mapping: /"
        try_log "$chip" $options check 2>/dev/null | sed "s/^log: /cuts $mapping, /"
    }
    echo "cuts $mapping, counts: n_many $(cat /sys/module/nandkeep/parameters/n_many) n_twice $(cat /sys/module/nandkeep/parameters/n_twice)"
    unsim
done
