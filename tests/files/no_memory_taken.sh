# From the first command on no memory is taken: a run over a long script of all commands asks malloc as often as one over an
# empty script. The calls are counted by a library that is loaded before the C library of the program.
. "$(dirname "$0")/common.sh"

cc=${CC:-cc}
command -v "$cc" >/dev/null || skip "there is no compiler of C"
"$cc" -std=c11 -O2 -shared -fPIC -o allocations.so "$here/../../bench/peers/allocations.c" 2>why ||
    skip "the library that counts isn't built here: $(tail -n 1 why)"

# How often a run over a script takes memory: counts SCRIPT WORDS..
counts() {
    script=$1
    shift
    rm -f counted
    LD_PRELOAD=$work/allocations.so ALLOCATIONS=$work/counted "$program" "$@" <"$script" >said 2>noted ||
        fail "$*: status $?; noted: $(cat noted)"
    od -A n -t u8 -j 16 -N 8 counted | tr -d ' '
}

: >empty
# Each command, done and refused, in memory and where pages are fetched: a page in each unit, more than there are frames.
awk 'BEGIN {
    long = sprintf("%928s", ""); gsub(" ", "6", long)
    for (round = 0; round < 6; round++) {
        for (s = 0; s < 4; s++) {
            print "begin", s
            for (i = 0; i < 10; i++) print "put", s, (s * 960 + (round * 10 + i) * 61) % 3840, "6162636465"
            print "put", s, s * 960 + 950, long
            print "put", s, s * 960 + 950, "-"
            print "del", s, (s * 960 + round * 7) % 3840
            for (i = 0; i < 30; i++) print "get", s, (i * 67 + s) % 3840
            print "share", s, 3839 - s
        }
        print "put 0 2000 61\nput 1 2000 62\nbegin 0\nbegin 32\nput 0 5000 61\nput 0 5 " long "66\nget 9 1\nmerge 9\nnothing\n# a comment\n"
        print "commit 0 0\ncommit 0 1\ncommit 2\nabort 3\nlist 0 3839\nmerge", round % 4
        if (round % 3 == 2) print "restart"
    }
    print "begin 5"
    for (i = 0; i < 300; i++) print "share 5", i
    for (i = 0; i < 60; i++) print "put 5", i, long
    print "abort 5"
}' >short
cat short short short >long
for words in "ram:8 --format" "ram:8 --format --frames 2" "ram:8 --format --frames 64 --close"; do
    none=$(counts empty run $words) || fail "$none"
    wants "run $words: the calls are seen" [ "$none" -gt 0 ]
    for script in short long; do
        some=$(counts $script run $words) || fail "$some"
        wants "run $words: $none calls of malloc without commands, and $some with those of a $script script" [ "$some" -eq "$none" ]
    done
    wants "the commands are done and refused" [ "$(grep -c '^ok' said)" -gt 500 -a "$(grep -c '^err' said)" -gt 100 ]
done
"$program" format file:8:chip >/dev/null || fail "no format"
none=$(counts empty run file:8:chip) || fail "$none"
some=$(counts long run file:8:chip) || fail "$some"
wants "a chip in a file: $none calls without commands, and $some with them" [ "$some" -eq "$none" ]
none=$(counts empty trial ram:8 --seed 7 --count 0) || fail "$none"
some=$(counts empty trial ram:8 --seed 7 --count 5000) || fail "$some"
wants "a trial: $none calls without commands, and $some with 5,000" [ "$some" -eq "$none" ]
# A view keeps its script, so that there more calls are seen.
none=$(counts empty serial ram:8) || fail "$none"
some=$(counts long serial ram:8) || fail "$some"
wants "a view: $none calls without commands, and $some with them" [ "$some" -gt "$none" ]
echo "as many calls of malloc over $(grep -c . long) lines as over none, with 2, 16 and 64 frames, over a file and in a trial"
