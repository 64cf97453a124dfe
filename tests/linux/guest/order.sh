# What each mapping asks of the part in 400 commits, by the counts of nandkeep: programs of pages; of a page that has one since its erase; below a
# page that was programmed later; a fifth one of a page; a second one of a quarter.
SIM=nandkeep
counts() {
    for count in n_prog n_again n_disorder n_many n_twice; do
        value=$(cat "/sys/module/nandkeep/parameters/$count")
        case $count in n_prog) ;; n_many | n_twice) echo -n " $count $value" ;; *) [ "$value" = 0 ] && echo -n " $count none" || echo -n " $count some" ;; esac
    done
}
for mapping in quarters rising-quarters pages rising-pages; do
    nosub=0
    case $mapping in *pages) nosub=1 ;; esac
    sim keep=0x10000000 fresh=1 overridesize=8 nosub=$nosub
    try_log "mtd:$D" --mapping $mapping --places 12 format 0 >/dev/null 2>&1
    try_log "mtd:$D" --mapping $mapping --places 12 --close log 3000 5 400 >/tmp/said 2>/tmp/told
    echo "order $mapping: $(grep -c '400 commits answered' /tmp/said) run;$(counts)"
    echo "order $mapping (told): $(sed -n 's/.*; //p' /tmp/told | head -n 1), programs of pages $(cat /sys/module/nandkeep/parameters/n_prog)"
    unsim
done
need ubi
sim keep=0x10000000 fresh=1 overridesize=8 nosub=1
ubi_on
try_log "ubi:$U" --places 12 format 0 >/dev/null 2>&1
try_log "ubi:$U" --places 12 --close log 3000 5 400 >/tmp/said 2>/tmp/told
echo "order ubi: $(grep -c '400 commits answered' /tmp/said) run;$(counts)"
