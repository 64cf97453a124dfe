# The launcher over a repository of its own, with a stand-in for rt that takes the program as built: what it says while it
# builds, that it finds its folder through links, and what is left where it is stopped or fails.
. "$(dirname "$0")/common.sh"

crate=$(sed -n 's/^crate=//p' "$launcher")
binary=$(sed -n 's/^binary=//p' "$launcher")
kit=$(sed -n 's/^kit=//p' "$launcher")
for name in low wide high higher other "$crate"; do
    mkdir -p "repo/crates/$name/src"
done
mkdir bin
# Of the five crates here three stand on one another at the end, whatever the launcher says of its own.
sed 's/^chain=.*/chain=3/' "$launcher" >repo/ipl
chmod +x repo/ipl
printf '%s\n' '# Crates.' 'low: arrayvec' 'wide: low' 'high: wide' 'higher: high' 'other: low' "$crate: higher clap" >repo/crates.txt
out=repo/crates/$crate/out
cat >bin/rt <<END
#!/bin/sh
# What it does stands in the file how. It proves two crates side by side, and would go on.
echo \$\$ >>"$work/numbers"
echo "\$(basename "\$PWD") \$*" >>"$work/calls"
case \$1-\$(cat "$work/how") in
all-waits) exec sleep 30 ;;
*-fails) echo "a goal is open" && exit 1 ;;
all-*) echo "== low" && sleep 1.5 && echo "== wide" && exec sleep 30 ;;
run-*) mkdir -p out && cp "$program" "out/$binary" ;;
esac
END
chmod +x bin/rt

# Runs the launcher by a path, and wants a status: launches STATUS PATH
launches() {
    wanted=$1
    PATH="$work/bin:$PATH" "$2" run ram:5 --format <"$work/script" >"$work/said" 2>"$work/noted"
    got=$?
    [ $got -eq "$wanted" ] || fail "$2: status $got and not $wanted; noted: $(cat "$work/noted")"
}
commit_of 61 >script

if ! PATH=/usr/bin:/bin command -v rt >/dev/null; then
    PATH=/usr/bin:/bin repo/ipl run ram:5 --format <script >said 2>noted
    wants "without rt the status is 125" [ $? -eq 125 ]
    wants "without rt the kit is named" grep -q "$kit.*README.md" noted
fi

echo fails >how
launches 125 repo/ipl
wants "what failed is said" grep -q "a goal is open" noted
wants "a log is kept" grep -q "a goal is open" $out/build.*.log
rm -r $out

for signal in INT TERM HUP; do
    echo waits >how
    : >numbers
    PATH="$work/bin:$PATH" timeout -s $signal 1 repo/ipl run ram:5 --format <script >said 2>noted
    wants "stopped by $signal it ends" [ $? -eq 124 ]
    wants "stopped by $signal it says so" grep -q stopped noted
    wants "stopped by $signal it leaves no log" [ -z "$(ls $out)" ]
    for number in $(cat numbers); do
        wants "stopped by $signal it leaves nothing running" [ ! -d "/proc/$number" ]
    done
done

echo builds >how
: >calls
ln -s repo/ipl one
ln -s "$work/one" bin/two
launches 0 "$work/bin/two"
wants "a build is told of" grep -q "proving 5 crates" noted
wants "the first crate is told of" grep -q "1 of 5 crates done.*low" noted
wants "the last ones are proved by themselves" [ "$(sed '1d; s/ [1-9][0-9]*$/ N/' calls)" = "high lib --jobs N
higher lib --jobs N
$crate run -- run ram:5 --format" ]
wants "the program's replies come" [ "$(tr '\n' ' ' <said)" = "ok ok ok " ]
wants "the binary alone is left" [ "$(ls $out)" = "$binary" ]
(cd / && launches 0 "$work/bin/two") || exit 1
wants "the second time nothing is built" [ ! -s noted ]
find repo -exec touch -d "1 hour ago" {} +
touch -d "1 minute ago" "$out/$binary"
mkdir -p repo/crates/low/must-fail repo/crates/low/out
touch repo/crates/other/src/lib.rt repo/crates/low/must-fail/a.edit repo/crates/low/out/kept repo/README.md
launches 0 ./one
wants "what it isn't made of is none of its concern" [ ! -s noted ]
echo fails >how
for source in crates/low/src/lib.rt "crates/$crate/src/main.rt" crates.txt HANDLES; do
    touch "repo/$source"
    launches 125 ./one
    wants "what is older than $source is built again" grep -q proving noted
    touch -d "1 hour ago" "repo/$source"
done
launches 0 ./one
echo builds >how
touch repo/crates/low/src/lib.rt
launches 0 ./one
wants "the first crate is proved again" grep -q proving noted
launches 0 ./one
wants "and then no more" [ ! -s noted ]
echo "no rt, a build that fails, three signals, a build through two links, later runs, and what is a source and what isn't"
