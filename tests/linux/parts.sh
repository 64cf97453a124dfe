# What `run` and `long` share: the tools, and parts that say a line each and fail at the end.

# want TOOLS..: without them nothing is tried, and that is no failure.
want() {
    for tool in "$@"; do
        command -v "$tool" >/dev/null || { echo "linux: skipped: there is no $tool"; exit 0; }
    done
    ls "${IPL_LINUX:-/var/tmp/ipl_linux}"/boot/vmlinuz-* >/dev/null 2>&1 \
        || { echo 'linux: skipped: no kernel was unpacked (tests/linux/install_tools)'; exit 0; }
}

# judge PART FILE: each case of the part has said what it must by `expected`. Where it says several lines, as an example over two parts, each.
judge() {
    count=0
    sed -n "/^\[$1\]/,/^\[/p" "$here/expected" | grep -v -e '^#' -e '^\[' -e '^$' >"$folder/cases"
    while IFS= read -r line; do
        name=${line%% = *}
        sed -n "s|^$name: ||p" "$2" >"$folder/said_of_it"
        if [ ! -s "$folder/said_of_it" ] || grep -Evx -e "${line#* = }" "$folder/said_of_it" >/dev/null; then
            echo "$name: must be: ${line#* = }"
            grep "^$name" "$2" || echo "$name: nothing was said"
            return 1
        fi
        count=$((count + 1))
    done <"$folder/cases"
    echo "$count cases as they must be"
}

# boot_and_judge PART WORDS..: the guest's script of that name.
boot_and_judge() {
    script=$1
    shift
    "$here/boot" "$folder" "$script.sh" "$@" >"$folder/said" 2>&1 || { tail -n 5 "$folder/said"; return 1; }
    tr -d '\r' <"$folder/said" >"$folder/lines"
    [ -z "${TELLS:-}" ] || cat "$folder/lines"
    grep -q "^guest: $script.sh ends with 0" "$folder/lines" || { tail -n 5 "$folder/lines"; return 1; }
    judge "$script" "$folder/lines"
}

# run_parts PARTS..: by the function `part` of each script; status 77 is a part that was skipped.
run_parts() {
    ran=0
    skipped=
    failed=
    for name in "$@"; do
        start=$(date +%s)
        # Not as a condition, in which the shell would go on past what fails.
        set +e
        (set -e; part "$name") >"$folder/out" 2>&1
        status=$?
        set -e
        case $status in
        0) ran=$((ran + 1)) ;;
        77) skipped="$skipped $name" ;;
        *) failed="$failed $name" ;;
        esac
        sed "s/^/linux: $name ($(($(date +%s) - start)) s): /" "$folder/out"
    done
    [ -z "$failed" ] || { echo "linux:$failed failed" >&2; exit 1; }
    echo "linux: $ran parts run in $(($(date +%s) - begun)) s${skipped:+, skipped:$skipped}"
}
