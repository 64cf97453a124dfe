# The example of values by keys, where it stands built beside the program: two runs over a file, what isn't a bucket, a chip
# that fails, and what its input may be. Key a lives in record 387 of 960, by zlib's sum of it.
. "$(dirname "$0")/common.sh"

example=$(dirname "$program")/../../keys_example/out/keys_example
[ -x "$example" ] || skip "the example of keys isn't built"

# Wants what the lines of standard input are answered, and how the run ends: answers STATUS TEXT WORDS..
answers() {
    wanted=$1
    text=$2
    shift 2
    "$example" "$@" >answered 2>noted
    got=$?
    [ $got -eq "$wanted" ] || fail "$*: status $got and not $wanted; noted: $(cat noted)"
    [ "$(cat answered)" = "$text" ] || fail "$*: answered $(tr '\n' ';' <answered) and not $text"
    if [ "$wanted" -eq 0 ]; then
        wants "$*: nothing is noted" [ ! -s noted ]
    else
        wants "$*: a line says why" [ "$(wc -l <noted)" -eq 1 ]
    fi
}

# The two runs of USAGE.md, and what the program lists between them.
printf 'begin 0\nput 0 door open\nput 0 lamp off since noon\ncommit 0\n' | answers 0 "ok
ok
ok
ok" file:57:keys || exit 1
echo 'list 0 50879' | ends 0 "" run file:57:keys || exit 1
wants "the buckets are listed" [ "$(cat said)" = "31981 04646f6f72046f70656e
46694 046c616d700e6f66662073696e6365206e6f6f6e
end" ]
printf 'begin 0\nget 0 lamp\nget 0 cellar\ndel 0 door\nabort 0\n' | answers 0 "ok
value off since noon
none
ok
ok" file:57:keys || exit 1
# What isn't committed when the input ends is gone.
printf 'begin 0\nput 0 lamp on\n' | answers 0 "ok
ok" file:57:keys || exit 1
printf 'begin 0\nget 0 lamp\nget 0 door\n' | answers 0 "ok
value off since noon
value open" file:57:keys || exit 1

# A record that was put by name and is no bucket.
ends 0 "" format file:5:chip
printf 'begin 0\nput 0 387 ff\ncommit 0\n' | ends 0 "" run file:5:chip || exit 1
printf 'get 0 a\nbegin 0\nget 0 a\nput 0 a x\ndel 0 a\nget 0 b\nget 32 a\n' | answers 0 "err 6 notopen
ok
err 20 badbucket 387
err 20 badbucket 387
err 20 badbucket 387
none
err 2 badsession" file:5:chip || exit 1

# A base sector of the page of key a, sector 97, has another byte in whichever place it stands.
ends 0 "" format file:5:chip
printf 'begin 0\nput 0 a hi\nput 0 b ho\ncommit 0\n' | answers 0 "ok
ok
ok
ok" file:5:chip || exit 1
echo 'merge 0' | ends 0 "" run file:5:chip || exit 1
for place in 0 1 2 3 4; do
    printf '\1' | dd of=chip bs=1 seek=$(((place * 256 + 97) * 512 + 40)) conv=notrunc 2>/dev/null
done
printf 'begin 0\nget 0 b\nget 0 a\nget 0 b\n' | answers 1 "ok
value ho" file:5:chip || exit 1
wants "it is said what is wrong" grep -q damaged noted

# What is no chip that it can have.
mkdir folder
mkfifo pipe
for name in folder pipe /dev/null nowhere/chip; do
    timeout 10 "$example" "file:5:$name" </dev/null >answered 2>noted
    wants "$name can't be had" [ $? -eq 1 ]
done
answers 1 "" file:6:chip </dev/null
answers 1 "" file:4:new </dev/null
answers 1 "" ram:57 ram:57 </dev/null
answers 1 "" chip </dev/null
wants "no file is made for four places" [ ! -e new ]

# Windows line ends, and input that isn't UTF-8.
printf 'begin 0\r\nput 0 a x\r\n\r\n# b\r\nget 0 a\r\nput 0 a y\rz\nget 0 a' | answers 0 "ok
ok

# b
value x
ok
$(printf 'value y\rz')" ram:57 || exit 1
printf 'begin 0\nput 0 a x\377\nget 0 a\n' | answers 1 "ok" ram:57 || exit 1
echo "two runs of a file, what isn't committed, a record that is no bucket, a spoiled page, eight chips that can't be had, and text"
