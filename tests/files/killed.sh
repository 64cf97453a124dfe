# Killed while it makes a file, a format leaves none or a whole one; killed while it runs, a run leaves a chip that opens
# with what was answered.
. "$(dirname "$0")/common.sh"

# Starts a format of a chip that isn't there, and kills it once a file is so: format_until TEST FILE
format_until() {
    "$program" format file:129:chip >said 2>/dev/null &
    format=$!
    tries=0
    until test "$1" "$2" || [ $((tries += 1)) -gt 3000000 ]; do :; done
    kill -KILL $format
    wait $format 2>/dev/null
    wants "a format makes its file in time" [ $tries -le 3000000 ]
    [ ! -e chip ] || is_chip chip 129
    [ ! -e chip.ipl-new ] || left=$((left + 1))
    ends 0 "" format file:129:chip
    is_chip chip 129
    wants "nothing else is left" [ ! -e chip.ipl-new ]
    lists file:129:chip end
    rm chip
}
# On a busy machine a format may be through before it is killed: then once more.
left=0
rounds=0
until [ $rounds -ge 2 ] && [ $left -gt 0 ]; do
    rounds=$((rounds + 1))
    wants "a format is killed while it makes its file" [ $rounds -le 20 ]
    format_until -e chip.ipl-new
    format_until -s chip.ipl-new
    format_until -e chip
done

# Values of one byte, which rise: what is listed is the last that was answered, or the one after it.
commits() {
    for value in $(seq 1 250); do
        commit_of "$(printf %02x "$value")"
    done
}
commits >script
answered=0
for commits in 0 1 2 5 20 60; do
    "$program" format file:8:chip8 >/dev/null || fail "no format"
    # The run empties the file only once it has begun, and what the last run said may not count for it.
    : >replies
    "$program" run file:8:chip8 <script >replies 2>/dev/null &
    run=$!
    tries=0
    until [ "$(grep -c ok replies)" -ge $((3 * commits)) ]; do
        wants "a run answers in time" [ $((tries += 1)) -lt 5000 ]
    done
    kill -KILL $run
    wait $run 2>/dev/null
    done=$(($(grep -c ok replies) / 3))
    answered=$((answered + done))
    printf 'begin 0\nget 0 5\n' | ends 0 "" run file:8:chip8 || exit 1
    found=$(tail -n 1 said)
    now=$(printf 'value %02x' $done)
    next=$(printf 'value %02x' $((done + 1)))
    [ $done -eq 0 ] && now=none
    [ "$found" = "$now" ] || [ "$found" = "$next" ] || fail "after $done commits: $found"
done
echo "$((3 * rounds)) formats killed that made a file ($left left it unfinished), and 6 runs after $answered commits in all"
