#!/bin/sh
# The rows of tools/ladder. Texts in tests/ladder are drawn, and compared with drawings that were read line by line beside their
# texts; then several of them by name, as a look prints them. Then what a drawing shows of messages that are lost, of reads that
# are stale, of texts that are cut and of those that are none, and how long one of 2,000 entries may take. This needs Python 3,
# and neither the kit nor the program.
set -eu

cd "$(dirname "$0")/.."
texts=tests/ladder

work=$(mktemp -d)
trap 'rm -rf "$work"' EXIT
trap 'exit 130' INT
trap 'exit 143' TERM
passed=0
failed=0

pass() {
    passed=$((passed + 1))
}

# fail NAME WHY
fail() {
    failed=$((failed + 1))
    echo "failed: $1: $2"
}

# Draws a text: draw TEXT WORDS..
draw() {
    text=$1
    shift
    status=0
    tools/ladder "$@" < "$text" > "$work/out" 2> "$work/err" || status=$?
}

# A text has this drawing: same NAME DRAWING TEXT WORDS..
same() {
    name=$1
    drawing=$2
    shift 2
    draw "$@"
    if [ "$status" = 0 ] && [ ! -s "$work/err" ] && cmp -s "$drawing" "$work/out"; then
        pass
    else
        fail "$name" "status $status"
        sed 's/^/  /' "$work/err"
        diff "$drawing" "$work/out" | head -n 10 | sed 's/^/  /'
    fi
}

# What was drawn last has these: shows NAME WANTED..
shows() {
    name=$1
    shift
    if [ "$status" != 0 ] || [ -s "$work/err" ]; then
        fail "$name" "status $status"
        return
    fi
    for wanted in "$@"; do
        if ! grep -qF -e "$wanted" "$work/out"; then
            fail "$name" "no $wanted"
            return
        fi
    done
    pass
}

# A text can't be drawn: status 2, one line on standard error, and no drawing: refuses NAME TEXT WORDS..
refuses() {
    name=$1
    shift
    draw "$@"
    if [ "$status" = 2 ] && [ ! -s "$work/out" ] && [ "$(grep -c '' "$work/err")" = 1 ] && grep -q '^ladder: .' "$work/err"; then
        pass
    else
        fail "$name" "status $status"
        sed 's/^/  /' "$work/err"
    fi
}

# What was drawn last is XML: is_xml NAME
is_xml() {
    if python3 -c 'import sys, xml.dom.minidom; xml.dom.minidom.parse(sys.stdin.buffer)' < "$work/out" 2> "$work/err"; then
        pass
    else
        fail "$1" "$(tail -n 1 "$work/err")"
    fi
}

# The text of a run in a row's file, without bytes and with them.
plain_text() {
    sed -e '1,/^----$/d' -e '/^---- wire$/,$d' "tests/rows/$1.row"
}
wire_text() {
    sed -e '1,/^---- wire$/d' "tests/rows/$1.row"
}

for example in break_overtakes stopped_inside_a_write out_of_order move_under_a_store mover_dies release_with_a_site_down dump_since_a_counter; do
    same "$example" "$texts/$example.drawing" "$texts/$example.text"
    plain_text "example_$example" > "$work/text"
    if cmp -s "$texts/$example.text" "$work/text"; then pass; else fail "$example" 'its text is not that of the row'; fi
    wire_text "example_$example" > "$work/text"
    same "$example with its bytes" "$texts/$example.drawing" "$work/text"
done
same 'a part of a run' "$texts/break_overtakes_4_15.drawing" "$texts/break_overtakes.text" --from 4 --to 15 --width 80
same 'each line that there is' "$texts/every_line.drawing" "$texts/every_line.text"
same 'an SVG file' "$texts/break_overtakes.svg" "$texts/break_overtakes.text" --svg

# Texts by name are drawn one after the other, each as it is drawn alone. One of them is that of a script that was refused.
for name in break_overtakes refused out_of_order; do
    echo "== examples/$name.afs"
    if [ -e "$texts/$name.text" ]; then cat "$texts/$name.text"; fi
done > "$work/texts"
{
    echo '== examples/break_overtakes.afs'
    cat "$texts/break_overtakes.drawing"
    printf '%s\n' '' '== examples/refused.afs' 'there is no text of a replay' '' '== examples/out_of_order.afs'
    cat "$texts/out_of_order.drawing"
} > "$work/drawings"
same 'three texts by name' "$work/drawings" "$work/texts"
draw "$work/texts" --from 7
shows 'texts of which one has no such entry' ' 7  ┃' 'there are no such entries'
draw "$work/texts" --svg
shows 'three texts by name in an SVG file' '>== examples/break_overtakes.afs<' '>10 StoreData reply<' '>== examples/refused.afs<' \
    '>== examples/out_of_order.afs<' '>2 FetchData reply<'
if [ "$(grep -c '<svg' "$work/out")" = 1 ] && [ "$(grep -c 'class="halo name"' "$work/out")" = 5 ]; then
    pass
else
    fail 'three texts by name in an SVG file' 'they are no one file with five lanes'
fi
is_xml 'three texts by name in an SVG file'
# Without a name between them no text may follow another one, whether that is whole or cut.
cat "$texts/out_of_order.text" "$texts/move.text" > "$work/text"
refuses 'a text after another one' "$work/text"
for lines in 5 18; do
    { head -n "$lines" "$texts/out_of_order.text"; cat "$texts/move.text"; } > "$work/text"
    refuses "a text after $lines lines of another one" "$work/text"
done
printf '== a\n== b\n' > "$work/text"
refuses 'names without a text' "$work/text"
refuses 'texts none of which has such entries' "$work/texts" --from 100

draw "$texts/move.text"
shows 'the location database, an administrator and two servers' 'client c1' 'loc' 'server s1' 'server s2' 'admin a1' \
    'move proj s2' '1 GetEntryByName' 'locks proj: stamp 1,' 'fences proj' 'proj is located at s2' 'enables proj' \
    'deletes proj here' 'change: c1'
draw "$texts/move.text" --order a1,loc,s1
head -n 1 "$work/out" | tr -s ' ' > "$work/names"
if [ "$(cat "$work/names")" = ' admin a1 loc server s1 server s2 client c1' ]; then
    pass
else
    fail 'the order of nodes' "$(cat "$work/names")"
fi

# What is read while the text told of a newer version.
plain_text holder_that_never_answers > "$work/text"
draw "$work/text"
shows 'a stale read' '(cached, stale)'
if [ "$(grep -c stale "$work/out")" = 1 ]; then pass; else fail 'a stale read' 'another read is marked'; fi

# A message that is lost, and one that is overtaken: without its line the reply with place 4 is never given.
draw "$texts/out_of_order.text"
shows 'a lost message' '✗─ 2 FetchData reply ─┤' '✗ never given'
sed '/^given 4$/d' "$texts/break_overtakes.text" > "$work/lost"
draw "$work/lost"
shows 'a message that is lost instead' '✗─ 4 FetchData reply ─┤'
draw "$work/lost" --svg
shows 'a lost message in an SVG file' 'class="arrow lost"'
if grep -q 'class="arrow overtaken".*reply' "$work/out"; then fail 'a lost message in an SVG file' 'it is overtaken'; else pass; fi

# However narrow a drawing is, such a message ends beside all lifelines, and its label tells the number.
for width in 20 30 40 50; do
    draw "$texts/out_of_order.text" --width "$width"
    shows "a lost message in a drawing of $width signs" ' ✗─ 2 re'
done

# No line of a text goes without a trace: the drawing without it is another.
number=0
while IFS= read -r line; do
    number=$((number + 1))
    sed "${number}d" "$texts/out_of_order.text" > "$work/less"
    draw "$work/less"
    if cmp -s "$work/out" "$texts/out_of_order.drawing"; then fail 'a line that is left out' "$line"; else pass; fi
done < "$texts/out_of_order.text"

# Texts that are cut, or have what isn't known.
head -c 700 "$texts/move.text" > "$work/cut"
draw "$work/cut"
shows 'a text that is cut' 'sent 14 s1 a1 reply' 'the text ends here, without its end'
sed 's/^drop c1/forget c1/' "$texts/break_overtakes.text" > "$work/unknown"
draw "$work/unknown" --width 150
shows 'an unknown word' ' forget c1 536870912.2.2 '
: > "$work/empty"
refuses 'an empty text' "$work/empty"
echo 'script: line 5: Contents' > "$work/garbage"
refuses 'garbage' "$work/garbage"
printf '\000\377\033[2J\nentry\n' > "$work/binary"
refuses 'bytes that are no text' "$work/binary" --svg
refuses 'entries that are not there' "$texts/move.text" --from 100

# A run of 2,000 entries, in each of which a client opens a file, or the server answers.
awk 'BEGIN {
    for (n = 1; n <= 2000; n += 4) {
        client = "c" (n % 3 + 1)
        number = (n + 3) / 4
        key = int(number / 3) + 1
        file = "536870912." 2 * (number % 50 + 1) "." number % 50 + 2
        print "entry " n " " client "\nbegin " client " open @" file
        print "sent " 2 * number - 1 " " client " s1 call 130 1." key
        print "entry " n + 1 " s1\ngiven " 2 * number - 1 "\ngrant s1 " client " " file " 1 7200"
        print "sent " 2 * number " s1 " client " reply 130 1." key " 0"
        print "entry " n + 2 " " client "\ngiven " 2 * number "\nread " client " " file " 1 fetched f:616263\nanswer " client " 0"
        print "entry " n + 3 " clock\ntick 1"
    }
    print "final\nend"
}' > "$work/long"

# within_two_seconds NAME WORDS..: of the processor, so that a busy machine doesn't count
within_two_seconds() {
    name=$1
    shift
    status=0
    (ulimit -t 2 && exec tools/ladder "$@") < "$work/long" > "$work/out" 2> "$work/err" || status=$?
    shows "$name" 'promises c3' 'reads 536870912.' '2000'
}

within_two_seconds '2,000 entries in two seconds'
within_two_seconds '2,000 entries in two seconds, as an SVG file' --svg

# Whoever reads a drawing may stop.
tools/ladder < "$work/long" 2> "$work/err" | head -n 1 > "$work/out"
if [ -s "$work/out" ] && [ ! -s "$work/err" ]; then pass; else fail 'a closed pipe' "$(cat "$work/err")"; fi

draw "$texts/break_overtakes.text" --width 60
if [ "$(python3 -c 'import sys; print(max(map(len, sys.stdin.buffer.read().decode().split("\n"))))' < "$work/out")" -le 60 ]; then
    pass
else
    fail 'a width' 'a row is longer'
fi
draw "$texts/every_line.text" --svg
is_xml 'an SVG file of each line'
draw "$work/empty" --help
shows 'help' '--svg' '--width N' '--from N' '--to N' '--order NODES'

echo "$passed passed, $failed failed"
[ "$failed" -eq 0 ]
