#!/bin/sh
# The rows of the launcher. The first ones need neither the kit nor the program: a copy of the launcher runs in a made folder,
# where small scripts stand for the program and for the kit. They tell what they were given, and end as they are told to.
# Then come rows of the program, where it is built: it and the launcher agree on words, and the launcher runs it at once. Last,
# where there is the kit, comes one first look at two files.
set -eu

cd "$(dirname "$0")/.."
top=$PWD

work=$(mktemp -d)
trap 'rm -rf "$work"' EXIT
trap 'exit 130' INT
trap 'exit 143' TERM
passed=0
failed=0

usage='usage: afscell replay [--wire] [--disks DIR] | gen N'
look_usage='usage: afscell look [--wire] FILE..'
# how long it says that a build and a look take
first_build=$(sed -n "s/^first_build='\(.*\)'$/\1/p" afscell)
first_look=$(sed -n "s/^first_look='\(.*\)'$/\1/p" afscell)

pass() {
    passed=$((passed + 1))
}

fail() {
    failed=$((failed + 1))
    echo "failed: the launcher: $1"
}

# ---- the made folder

home=$work/home
program=$home/crates/afs_top/out/afs_top
launcher=$home/afscell
mkdir -p "$work/kit" "$work/tmp" "$home/docs"
cp afscell "$home"
cp docs/formats.md "$home/docs"
for crate in low middle afs_top; do
    mkdir -p "$home/crates/$crate/src"
    echo '// a source' > "$home/crates/$crate/src/lib.rt"
done
mkdir -p "$home/crates/middle/must-fail" "$home/crates/middle/proofs" "$home/crates/low/out"
for file in must-fail/an.edit proofs/Lib.antt; do : > "$home/crates/middle/$file"; done
: > "$home/crates/low/out/made"
printf 'afs_top: middle low bytes\nmiddle: low # a comment: low\nlow: bytes\nother: low\n' > "$home/crates.txt"
echo 'Handles allowed: none.' > "$home/HANDLES"

# The stand-in of the program prints its words and its input. What it tells on standard error and its status are in files.
cat > "$work/stand_in" << END
#!/bin/sh
echo "words:\$(printf ' <%s>' "\$@")"
cat
cat '$work/tells' >&2
exit "\$(cat '$work/status')"
END
chmod +x "$work/stand_in"

# Puts the stand-in where the program is, as proved and built: install STATUS [LINE]
install() {
    mkdir -p "${program%/*}"
    cp "$work/stand_in" "$program"
    : > "${program%/*}/afscell.built"
    echo "$1" > "$work/status"
    if [ $# = 2 ]; then echo "$2" > "$work/tells"; else : > "$work/tells"; fi
}

uninstall() {
    rm -rf "${program%/*}"
}

# The stand-in of the kit writes down how it was called. As the gate it writes down what it finds, and proves all crates but one
# that has a file refuse, with those that come after it; low was proved by an earlier run. Then it builds the stand-in of the
# program. Where there is a file never_ends, it says which process it is, does what that file says, and never ends. A case that it
# tries has its status, and what is told of it, in its comments.
cat > "$work/kit/rt" << END
#!/bin/sh
echo "\${PWD##*/}: \$*" >> '$work/called'
case \$1 in
ci)
    find . -type f | LC_ALL=C sort > '$work/copied'
    cat crates.txt >> '$work/copied'
    if [ -e crates/afs_top/never_ends ]; then
        echo \$\$ > '$work/process'
        . crates/afs_top/never_ends
        exec sleep 100
    fi
    for crate in low middle afs_top; do
        if [ "\$crate" = low ]; then
            echo 'rt: low is kept: an earlier run proved the same files'
            continue
        fi
        echo "== \$crate"
        echo 'so far: 3 of 7 functions checked, 12 s'
        if [ -e "crates/\$crate/refuse" ]; then
            echo "error: \$crate::first is not proved"
            echo "rt: \$crate NOT PROVED"
            echo '1 passed, 1 failed'
            exit 1
        fi
        echo "fn \$crate::first: proved"
        echo "rt: \$crate proved"
    done
    if [ -e crates/afs_top/no_program ]; then printf '%s\\n' 'rt: FAILED: afs_top (run)' '2 passed, 1 failed'; exit 1; fi
    mkdir -p crates/afs_top/out
    cp '$work/stand_in' crates/afs_top/out/afs_top
    echo 'rt: ok'
    echo '3 passed, 0 failed'
    ;;
try)
    if [ -e refuse ]; then echo 'error: no program' >&2; exit 1; fi
    for file in "\$3"/*; do
        if grep -q '^# never ends' "\$file"; then
            echo \$\$ > '$work/process'
            exec sleep 100
        fi
        if grep -q '^# stops the kit' "\$file"; then echo stopped >&2; exit 2; fi
        case=\${file##*/}
        if grep -q '^# no answer' "\$file"; then
            echo 'checked: no-answer: the program wrote too much' >&2
            echo "case=\$case run=no-answer proved=no" >&2
            continue
        fi
        status=\$(sed -n 's/^# status //p' "\$file")
        sed -n 's/^# tells //p' "\$file" >&2
        echo "== \$case"
        if [ "\${status:-0}" = 0 ]; then sed -n 's/^# prints //p' "\$file"; fi
        echo "case=\$case run=ended status=\${status:-0} runners=1 races=unchecked proved=no" >&2
    done
    echo 'cases=1 ended=1 fault=0 differs=0 no-answer=0 proved=no' >&2
    ;;
esac
END
# a clock on which a minute passes from one look to the next
cat > "$work/kit/date" << END
#!/bin/sh
echo . >> '$work/clock'
echo \$((\$(wc -l < '$work/clock') * 60))
END
chmod +x "$work/kit/rt" "$work/kit/date"

# What is wanted: the status, and what is printed and told, of which each argument is a line: wanted STATUS, prints LINE..,
# tells LINE..
wanted() {
    want=$1
    : > "$work/want.out"
    : > "$work/want.err"
}

prints() {
    printf '%s\n' "$@" >> "$work/want.out"
}

tells() {
    printf '%s\n' "$@" >> "$work/want.err"
}

# Compares what came of a command with what is wanted, and looks whether a file was left over: judge NAME
judge() {
    if [ "$status" = "$want" ] && cmp -s "$work/want.out" "$work/out" && cmp -s "$work/want.err" "$work/err" &&
        [ -z "$(ls -A "$work/tmp")" ]; then
        pass
        return
    fi
    fail "$1: status $status, wanted $want"
    diff "$work/want.out" "$work/out" | head -n 10 | sed 's/^/  output: /' || :
    diff "$work/want.err" "$work/err" | head -n 10 | sed 's/^/  error: /' || :
    find "$work/tmp" -mindepth 1 | sed 's/^/  left over: /'
}

# the variable that asks for a look, and whether the input is given over a pipe
look=
pipe=

# Runs the launcher of the made folder with the stand-in of the kit.
run_launcher() {
    AFSCELL_LOOK=$look TMPDIR=$work/tmp PATH=$work/kit:$PATH "$launcher" "$@"
}

# Runs it on standard input and judges it: launch NAME WORDS..
launch() {
    name=$1
    shift
    status=0
    if [ -z "$pipe" ]; then run_launcher "$@"; else cat | run_launcher "$@"; fi > "$work/out" 2> "$work/err" || status=$?
    judge "$name"
}

# Runs a row with the variable that asks for a look.
by_variable() {
    look=1
    "$@"
    look=
}

# Runs a row with its input over a pipe.
over_pipe() {
    pipe=1
    "$@"
    pipe=
}

# As launch, where the kit must not be called.
launch_at_once() {
    rm -f "$work/called"
    launch "$@"
    if [ -e "$work/called" ]; then fail "$1: the kit was called: $(cat "$work/called")"; fi
}

# ---- words

# Rows of words: whether they have a form, or have one but for a folder's name that is no text, and then the words, parted by
# bars.
cat > "$work/words" << END
form|replay
form|replay|--wire
form|replay|--disks|disks
form|replay|--disks=disks
form|replay|--wire|--disks|disks
form|replay|--disks|disks|--wire
form|replay|--wire|--disks=disks
form|replay|--disks=disks|--wire
form|replay|--disks|disks and more
form|replay|--disks=a=b
form|replay|--disks==
form|replay|--disks=a=--wire
form|replay|--disks|replay
form|replay|--disks|$(printf '\303\244')
form|gen|1
form|gen|9
form|gen|10
form|gen|999
form|gen|1000
none
none|
none|Replay
none|replay|
none|replay|replay
none|replay|--
none|replay|--|--wire
none|replay|--wire|--
none|replay|--disks=disks|--
none|replay|-
none|replay|help
none|replay|--help
none|replay|-h
none|replay|--version
none|replay|-V
none|replay|--Wire
none|replay|--wir
none|replay|--wires
none|replay|-wire
none|replay|-w
none|replay|--wire=
none|replay|--wire=1
none|replay|--wire|true
none|replay|--disk|disks
none|replay|--wire|--wire
none|replay|--disks
none|replay|--disks|
none|replay|--disks=
none|replay|--disks|--wire
none|replay|--disks|--wire|--wire
none|replay|--wire|--disks
none|replay|--wire|--disks=
none|replay|--disks=-
none|replay|--disks=-a
none|replay|--disks=--
none|replay|--disks=--wire|--wire
none|replay|--disks|-
none|replay|--disks|-a
none|replay|--disks|--
none|replay|--disks|disks|--disks|disks
none|replay|--disks=disks|--disks=disks
none|replay|--disks=disks|--disks|disks
none|replay|--disks=disks|more
none|replay|--wire|--disks|disks|--wire
none|replay|--disks|disks|more
none|replay|--wire|replay
bytes|replay|--disks|$(printf 'a\355\240\200')
bytes|replay|--disks=$(printf '\377')
bytes|replay|--disks|$(printf '\364\220\200\200')
none|--wire
none|--wire|replay
none|--disks|disks|replay
none|replays
none|run
none|run|--wire
none|gen
none|gen|
none|gen|0
none|gen|+1
none|gen|-1
none|gen|01
none|gen|1001
none|gen|10000
none|gen|1x
none|gen| 1
none|gen|1|1
none|gen|1|--wire
none|gen|--wire|1
none|gen|--
none|gen|--|1
none|gen|--help
none|1|gen
none|Gen|1
none|gen|replay
none|--
none|--|replay
none|help|replay
none|--help|replay
none|-h|-h
none|--version
none|-V
END

# Gives each row of words to a command, as COMMAND HAS_FORM NAME WORDS..
each_words() {
    command=$1
    while IFS= read -r row; do
        has_form=${row%%|*}
        rest=${row#"$has_form"}
        name="words '${rest#|}'"
        set --
        while [ -n "$rest" ]; do
            rest=${rest#|}
            set -- "$@" "${rest%%|*}"
            case $rest in
            *'|'*) rest=\|${rest#*|} ;;
            *) rest= ;;
            esac
        done
        "$command" "$has_form" "$name" "$@" < /dev/null
    done < "$work/words"
}

# Words that have a form are the program's; others are refused at once. Of a folder whose name is no text see below.
launcher_takes() {
    has_form=$1
    shift
    case $has_form in
    none)
        wanted 2
        tells "$usage"
        launch_at_once "$@"
        ;;
    form)
        name=$1
        shift
        wanted 0
        prints "words:$(printf ' <%s>' "$@")"
        launch_at_once "$name" "$@"
        ;;
    esac
}
install 0
each_words launcher_takes
# without the program too, and for a look
uninstall
wanted 2
tells "$usage"
launch_at_once 'no words, without the program' < /dev/null
by_variable launch_at_once 'words of no form, for a look' replay replay < /dev/null
by_variable launch_at_once 'words of no form for a made script, for a look' gen 0 < /dev/null

for words in --help -h help 'look --help'; do
    status=0
    rm -f "$work/called"
    # these are words of the command line
    run_launcher $words > "$work/out" 2> "$work/err" < /dev/null || status=$?
    if [ "$status" = 0 ] && [ ! -s "$work/err" ] && [ ! -e "$work/called" ] && [ "$(head -n 1 "$work/out")" = "$usage" ] &&
        grep -qF 'afscell look [--wire] FILE..' "$work/out" && grep -qF 'replay < ' "$work/out"; then
        pass
    else
        fail "$words: status $status"
    fi
done

# What one types first: the script's file as a word. A folder is none, and the folder of the disks isn't meant either.
echo 'cell 1' > "$work/a script"
wanted 2
tells "afscell: replay reads its script from standard input: $launcher replay < $work/a script" "$usage"
launch_at_once 'a file after replay' replay "$work/a script" < /dev/null
launch_at_once 'a file after --wire' replay --wire "$work/a script" < /dev/null
launch_at_once 'a file after the folder of the disks' replay --disks "$work" "$work/a script" < /dev/null
by_variable launch_at_once 'a file after replay, for a look' replay "$work/a script" < /dev/null
wanted 2
tells "$usage"
launch_at_once 'a folder after replay' replay "$work" < /dev/null
launch_at_once 'a file that is not there after replay' replay "$work/none" < /dev/null
launch_at_once 'a file as the folder of the disks, twice' replay --disks "$work/a script" --disks "$work/a script" < /dev/null
launch_at_once 'a file without replay' "$work/a script" < /dev/null

# ---- a look at files that can't be made

wanted 2
tells "$look_usage"
launch_at_once 'a look at no file' look < /dev/null
launch_at_once 'a look with --wire and no file' look --wire < /dev/null
launch_at_once 'a look with --wire twice' look --wire "$work/a script" --wire < /dev/null
launch_at_once 'a look with disks' look --disks disks "$work/a script" < /dev/null
wanted 2
tells "afscell: $work is a folder: name the files in it"
launch_at_once 'a look at a folder' look "$work/a script" "$work" < /dev/null
for file in "$work/none" ''; do
    wanted 2
    tells "afscell: $file can't be read"
    launch_at_once "a look at '$file', that can't be read" look "$work/a script" "$file" < /dev/null
done

# Where there is no kit, each way that needs it says so.
mkdir "$work/tools"
for tool in cat dirname head mkdir mktemp printf rm; do ln -s "$(command -v "$tool")" "$work/tools"; done
without_kit() {
    name=$1
    shift
    status=0
    TMPDIR=$work/tmp PATH=$work/tools "$launcher" "$@" > "$work/out" 2> "$work/err" < "$work/a script" || status=$?
    judge "$name"
}
wanted 125
tells "afscell: the kit's command rt is not on the PATH, and the program isn't built, or not from the sources as they stand"
without_kit 'no program and no kit' replay
wanted 125
tells "afscell: the kit's command rt is not on the PATH, and a first look is made by the kit"
without_kit 'a look without the kit' look "$work/a script"

# ---- the program that is built: its streams and its status

printf 'first\nsecond\n' > "$work/script"
for ended in 0 4 5 6 7 8; do
    install "$ended" 'a line of the program'
    wanted "$ended"
    prints 'words: <replay> <--wire>' first second
    tells 'a line of the program'
    launch_at_once "the program's status $ended" replay --wire < "$work/script"
    over_pipe launch_at_once "the program's status $ended, over a pipe" replay --wire < "$work/script"
    wanted "$ended"
    prints 'words: <gen> <4>'
    tells 'a line of the program'
    launch_at_once "the program's status $ended, of a made script" gen 4 < "$work/script"
done

# The variable that asks for a look does so by 1 alone.
install 0
wanted 0
prints 'words: <replay>' first second
look=0
launch_at_once 'a variable that asks for no look' replay < "$work/script"
look=

wanted 0
prints 'words: <replay>' second
{ read -r _; launch_at_once 'a file from its second line on' replay; } < "$work/script"
wanted 0
prints 'words: <replay>'
launch_at_once 'no input' replay < /dev/null

# As many bytes as a script may have, which aren't text, and one more pass unchanged; of what is above them nothing is read.
{ printf 'words: <replay>\n'; head -c 16777217 /dev/zero; } > "$work/want.out"
: > "$work/want.err"
head -c 16777217 /dev/zero > "$work/large"
launch_at_once 'an input at the limit' replay < "$work/large"
over_pipe launch_at_once 'an input at the limit, over a pipe' replay < "$work/large"
over_pipe launch_at_once 'an input without an end, over a pipe' replay < /dev/zero
launch_at_once 'a device' replay < /dev/zero
rm -f "$work/large"
rm -f "$work/want.out"

# A file is read where it is: that needs no place for a copy.
wanted 0
prints 'words: <replay>' first second
status=0
TMPDIR=$work/none "$launcher" replay < "$work/script" > "$work/out" 2> "$work/err" || status=$?
judge 'a file, where there is no place for a copy'

# The program finds a closed input as the launcher does: the stand-in's cat fails.
install 4
status=0
TMPDIR=$work/tmp "$launcher" replay > "$work/out" 2> "$work/err" <&- || status=$?
if [ "$status" = 4 ] && [ "$(cat "$work/out")" = 'words: <replay>' ]; then pass; else fail "a closed input: status $status"; fi
# So with a folder, which can be opened but not read.
status=0
TMPDIR=$work/tmp "$launcher" replay > "$work/out" 2> "$work/err" < "$work" || status=$?
if [ "$status" = 4 ] && [ "$(cat "$work/out")" = 'words: <replay>' ]; then pass; else fail "a folder as input: status $status"; fi

# A disk fault, where there is a folder for the disks and where there is none.
install 6 'disk fault'
wanted 6
prints 'words: <replay>' first second
tells 'disk fault'
launch_at_once 'a disk fault without a folder' replay < "$work/script"
wanted 6
prints "words: <replay> <--disks> <$work/tmp>" first second
tells 'disk fault'
launch_at_once 'a disk fault in a folder' replay --disks "$work/tmp" < "$work/script"
wanted 6
prints "words: <replay> <--disks=$work/none>" first second
tells 'disk fault' "afscell: there is no folder $work/none for the disks"
launch_at_once 'a disk fault where there is no folder' replay "--disks=$work/none" < "$work/script"

# A folder whose name is no text is the program's by a link that has one: whole or not, in both spellings, and with the input over
# a pipe too. The stand-in tells its words but the last, what stands in the folder that this one names, and its input.
install 0
cat > "$program" << END
#!/bin/sh
while [ \$# -gt 1 ]; do printf '<%s> ' "\$1"; shift; done
cat "\$1/seen" || exit 6
cat
END
bytes=$(printf 'a\377b')
mkdir "$work/$bytes"
echo 'by its name' > "$work/$bytes/seen"
of_bytes() {
    wanted 0
    prints '<replay> <--disks> by its name' first second
    launch_at_once "a folder whose name is no text, $1" replay --disks "$work/$bytes" < "$work/script"
    launch_at_once "a folder whose name is no text, $1, in one word" replay "--disks=$work/$bytes" < "$work/script"
    cd "$work"
    launch_at_once "a folder whose name is no text, $1, from beside it" replay --disks "$bytes" < "$work/script"
    cd "$work/$bytes"
    launch_at_once "a folder whose name is no text, $1, from within" replay --disks "../$bytes" < "$work/script"
    cd "$top"
    wanted 0
    prints '<replay> <--wire> <--disks> by its name' first second
    launch_at_once "a folder whose name is no text, $1, with --wire" replay "--disks=$work/$bytes" --wire < "$work/script"
}
of_bytes 'of a file'
over_pipe of_bytes 'over a pipe'
# A folder with a name that is text is named as it is, whatever the folder where one stands.
wanted 0
prints '<replay> <--disks> by its name' first second
cd "$work/$bytes"
launch_at_once 'the folder where one stands, whose name is no text' replay --disks . < "$work/script"
cd "$top"
# Where there is none the program finds none.
status=0
run_launcher replay --disks "$work/none$bytes" < "$work/script" > "$work/out" 2> "$work/err" || status=$?
wanted 6
printf '<replay> <--disks> ' >> "$work/want.out"
cp "$work/err" "$work/told"
tail -n 1 "$work/told" > "$work/err"
tells "afscell: there is no folder $work/none$bytes for the disks"
judge 'a folder whose name is no text, where there is none'
# A script that is refused is explained as ever.
cat > "$program" << END
#!/bin/sh
cat > '$work/taken'
echo 'script: line 2: Order' >&2
exit 3
END
wanted 3
tells 'script: line 2: Order' '  line 2: "second"' "  Order: $(sed -n 's/^| `Order` | \([^|]*\) | .*/\1/p' docs/formats.md) (docs/formats.md has an example)"
launch_at_once 'a folder whose name is no text, and a script that is refused' replay --disks "$work/$bytes" < "$work/script"
over_pipe launch_at_once 'the same over a pipe' replay --disks "$work/$bytes" < "$work/script"
# Where there is no iconv to see what is text, each name that isn't of ASCII gets a link.
mkdir "$work/few"
for tool in awk cat cut dirname find grep head iconv ln mktemp printf rm sed sh tail tr wc; do
    if [ "$tool" != iconv ]; then ln -s "$(command -v "$tool")" "$work/few"; fi
done
install 0
wanted 0
printf 'words: <replay> <--disks> <LINK>\nfirst\nsecond\n' >> "$work/want.out"
status=0
TMPDIR=$work/tmp PATH=$work/few "$launcher" replay --disks "$work/$(printf '\303\244')" < "$work/script" 2> "$work/err" |
    sed "s|<$work/tmp/[^/]*/folder>|<LINK>|" > "$work/out" || status=$?
judge 'a folder of another alphabet, without iconv'

# ---- a script that is refused

# the rule of a reason, as it stands in the document
rule() {
    sed -n "s/^| \`$1\` | \([^|]*\) | .*/\1/p" docs/formats.md
}

# The program refuses a line of the script for a reason, and the launcher tells the line and the rule: refused LINE REASON [TOLD]
refuses() {
    install 3 "script: line $1: $2"
    wanted 3
    prints 'words: <replay>'
    cat "$work/bad" >> "$work/want.out"
    tells "script: line $1: $2"
    if [ $# = 3 ]; then tells "  line $1: $3"; fi
    tells "  $2: $(rule "$2") (docs/formats.md has an example)"
}

# Each reason of the program has a rule.
printf '# a comment\nclients x\n' > "$work/bad"
reasons=$(sed -n 's/^reason_word .* = codes "\(.*\)"$/\1/p' crates/afs_command/specs/Statuses.antt)
if [ "$(echo "$reasons" | wc -l)" -eq 9 ]; then pass; else fail 'the reasons of the program are not nine'; fi
for reason in $reasons; do
    if [ -n "$(rule "$reason")" ]; then pass; else fail "$reason has no rule in docs/formats.md"; fi
    refuses 2 "$reason" '"clients x"'
    launch_at_once "refused: $reason" replay < "$work/bad"
    over_pipe launch_at_once "refused: $reason, over a pipe" replay < "$work/bad"
done

printf 'cell 1\r\nservers 1 \n\nlast' > "$work/bad"
refuses 1 Number '"cell 1^M"'
launch_at_once 'refused: a carriage return' replay < "$work/bad"
refuses 2 Word '"servers 1 "'
launch_at_once 'refused: a space at the end' replay < "$work/bad"
refuses 3 Order '""'
launch_at_once 'refused: an empty line' replay < "$work/bad"
refuses 4 Missing '"last"'
launch_at_once 'refused: a line without a newline' replay < "$work/bad"
refuses 5 Missing
launch_at_once 'refused: the line after the last' replay < "$work/bad"
over_pipe launch_at_once 'refused: the line after the last, over a pipe' replay < "$work/bad"

hundred=$(printf '%0100d' 0)
printf '%s\n%s\n' "$hundred$hundred" "$hundred${hundred}1" > "$work/bad"
refuses 1 Limit "\"$hundred$hundred\""
launch_at_once 'refused: a line of 200 bytes' replay < "$work/bad"
refuses 2 Limit "\"$hundred$hundred\" .."
launch_at_once 'refused: a line of 201 bytes' replay < "$work/bad"

printf 'first\nsecond\nthird\n' > "$work/bad"
refuses 2 Order '"third"'
sed 1d "$work/bad" > "$work/part"
{ echo 'words: <replay>'; cat "$work/part"; } > "$work/want.out"
{ read -r _; launch_at_once 'refused: a file from its second line on' replay; } < "$work/bad"

# A line that isn't the program's is not explained.
for line in 'script: line 0: Word' 'script: line 2' 'script: line 2p: Word' 'another line' 'script: line 2: a Word'; do
    install 3 "$line"
    wanted 3
    prints 'words: <replay>' first second third
    tells "$line"
    launch_at_once "refused: '$line'" replay < "$work/bad"
done
install 3 'script: line 2: Other'
wanted 3
prints 'words: <replay>' first second third
tells 'script: line 2: Other' '  line 2: "second"'
launch_at_once 'refused: a reason without a rule' replay < "$work/bad"

# ---- signals

# A program that says which process it is, and never ends.
install 0
cat > "$program" << END
#!/bin/sh
echo \$\$ > '$work/process'
exec sleep 100
END
echo '# never ends' > "$work/endless"

# Waits until there is a file of this name below the folder, a minute at most: comes NAME
comes() {
    tries=0
    while [ -z "$(find "$work" -name "$1")" ]; do
        tries=$((tries + 1))
        [ "$tries" -lt 600 ] || return 1
        sleep 0.1
    done
}

# After a signal to the launcher it has to be gone, with what it ran and what it kept: judge_signal NAME STATUS
judge_signal() {
    process=$(cat "$work/process" 2> /dev/null || echo none)
    if [ "$status" = "$2" ] && ! kill -0 "$process" 2> /dev/null && [ -z "$(ls -A "$work/tmp")" ]; then
        pass
    else
        fail "$1: status $status, wanted $2"
        kill "$process" 2> /dev/null || :
        rm -rf "$work/tmp"
        mkdir "$work/tmp"
    fi
}

# what the launcher does when the signal comes
doing=replay

# Sends a signal to the launcher alone, once a file is there that is made when it runs what never ends; standard input is
# the launcher's: end_by SIGNAL STATUS FILE WORDS..
end_by() {
    signal=$1
    ends=$2
    file=$3
    shift 3
    rm -f "$work/process"
    TMPDIR=$work/tmp PATH=$work/kit:$PATH "$launcher" "$@" <&9 > /dev/null 2>&1 &
    running=$!
    if comes "$file"; then
        kill -s "$signal" "$running"
        # a launcher that doesn't end would keep the tests
        (sleep 60 && kill -9 "$running") > /dev/null 2>&1 &
        guard=$!
        status=0
        wait "$running" 2> /dev/null || status=$?
        kill "$guard" 2> /dev/null || :
        judge_signal "the signal $signal to $doing" "$ends"
    else
        fail "the signal $signal to $doing: nothing runs"
    fi
}

# who runs these rows may have this signal ignored, as nohup does; then no shell below can take it
end_by_hup() {
    case $(sed -n 's/^SigIgn:.*\(.\)$/\1/p' "/proc/$$/status" 2> /dev/null || :) in
    [13579bdf]) echo "skipped: the signal HUP to $doing (it is ignored here)" ;;
    *) end_by HUP 129 "$@" ;;
    esac
}

# As with ctrl-C, all get the signal at once: what the launcher runs sends it to its group. The shell lets what runs beside it
# ignore such a signal, so the launcher runs in front, in a group of its own, which timeout makes: end_all SIGNAL STATUS
end_all() {
    if ! command -v timeout > /dev/null 2>&1; then
        echo "skipped: the signal $1 to all of $doing (there is no timeout)"
        return
    fi
    rm -f "$work/process"
    status=0
    # (the shell tells that it was a signal)
    {
        (ulimit -c 0 && TMPDIR=$work/tmp PATH=$work/kit:$PATH exec timeout --preserve-status 60 "$launcher" replay) < "$work/bad" ||
            status=$?
    } > /dev/null 2>&1
    if [ -e "$work/process" ]; then
        judge_signal "the signal $1 to all of $doing" "$2"
    else
        fail "the signal $1 to all of $doing: nothing runs"
    fi
}
exec 9< "$work/bad"
end_by TERM 143 process replay
end_by_hup process replay
doing='a look'
end_by TERM 143 process look "$work/endless"
# a stream of which nothing comes, so that it is still copied
mkfifo "$work/pipe"
exec 9<> "$work/pipe"
doing='a copy of the input'
end_by TERM 143 input replay
exec 9<&-

doing=replay
cat > "$program" << END
#!/bin/sh
echo \$\$ > '$work/process'
kill -s INT 0
exec sleep 100
END
end_all INT 130

# A build: the kit's gate has to end too, and nothing of the copy may be left.
uninstall
doing='a build'
: > "$home/crates/afs_top/never_ends"
exec 9< "$work/bad"
end_by TERM 143 process replay
end_by_hup process replay
exec 9<&-
for it in 'INT 130' 'QUIT 131'; do
    echo "kill -s ${it% *} 0" > "$home/crates/afs_top/never_ends"
    end_all "${it% *}" "${it#* }"
done
rm -f "$home/crates/afs_top/never_ends"

# ---- proving and building, by the stand-in of the kit

began() {
    tells "afscell: proving and building the program, which takes $first_build the first time" \
        "afscell: (to see a script played unproved, in $first_look: $launcher look FILE)"
}
uninstall
: > "$work/tells"
echo 0 > "$work/status"
rm -f "$work/clock" "$work/called"
wanted 0
prints 'words: <replay>' first second
began
tells 'afscell: proved low, 1 of 3; 2 left; 1 minute so far' 'afscell: proved middle, 2 of 3; 1 left; 2 minutes so far' \
    'afscell: proved afs_top, 3 of 3; 0 left; 3 minutes so far' 'afscell: proved and built in 4 minutes'
launch 'proving and building' replay < "$work/script"
printf 'copy: ci\n' > "$work/calls"
if cmp -s "$work/called" "$work/calls"; then pass; else fail "the kit is called by $(cat "$work/called")"; fi
# it finds what the program is made from alone (that nothing is left of the copy is looked at in each row)
cat > "$work/wants" << END
./HANDLES
./crates.txt
./crates/afs_top/src/lib.rt
./crates/low/src/lib.rt
./crates/middle/proofs/Lib.antt
./crates/middle/src/lib.rt
./needed
afs_top: middle low bytes
middle: low # a comment: low
low: bytes
END
if cmp -s "$work/copied" "$work/wants"; then pass; else fail "the kit finds $(cat "$work/copied")"; fi
wanted 0
prints 'words: <replay>' first second
launch_at_once 'what was built is run at once' replay < "$work/script"

# A newer source is proved first. What the kit refuses is told, and there is no program then.
touch -d '1 minute' "$home/crates/low/src/lib.rt"
: > "$home/crates/middle/refuse"
rm -f "$work/clock"
wanted 125
began
tells 'afscell: proved low, 1 of 3; 2 left; 1 minute so far' \
    'error: middle::first is not proved' 'rt: middle NOT PROVED' \
    "afscell: the program was not proved or not built; all that the kit said is in ${program%/*}/afscell.built.log"
launch 'a proof that is refused' replay < "$work/script"
# (the kit's gate refuses a repository in which another one stands)
if [ -z "$(find "$home/crates" -name crates.txt -o -name .git)" ]; then pass; else fail 'a proof that is refused leaves a repository'; fi
rm -f "$home/crates/middle/refuse"
: > "$home/crates/afs_top/no_program"
rm -f "$work/clock"
wanted 125
began
tells 'afscell: proved low, 1 of 3; 2 left; 1 minute so far' 'afscell: proved middle, 2 of 3; 1 left; 2 minutes so far' \
    'afscell: proved afs_top, 3 of 3; 0 left; 3 minutes so far' 'rt: FAILED: afs_top (run)' \
    "afscell: the program was not proved or not built; all that the kit said is in ${program%/*}/afscell.built.log"
launch 'a program that is not built' replay < "$work/script"
rm -f "$home/crates/afs_top/no_program"

# ---- first looks, by the stand-in of the kit

not_proved="afscell: a first look, which takes $first_look: what runs is NOT PROVED"
printf '# prints a text\n' > "$work/good"
printf '# status 3\n# tells script: line 3: Word\nbad  line\n' > "$work/bad"
printf '# status 8\n# tells limit\n' > "$work/full"
printf '# status 6\n# tells disk fault\n' > "$work/faulty"
printf '# no answer\n' > "$work/silent"

wanted 0
prints 'a text'
tells "$not_proved"
launch 'a look at one file' look "$work/good" < /dev/null
by_variable launch 'a look at one file, by both' look "$work/good" < /dev/null
wanted 8
tells "$not_proved" limit
launch 'a look at one file that does not end with 0' look "$work/full" < /dev/null

rm -f "$work/called"
wanted 3
prints "== $work/good" 'a text' "== $work/bad" "== $work/full" "== $work/good" 'a text'
tells "$not_proved" "afscell: $work/bad ended with status 3" 'script: line 3: Word' '  line 3: "bad  line"' \
    "  Word: $(rule Word) (docs/formats.md has an example)" "afscell: $work/full ended with status 8" limit
launch 'a look at four files' look "$work/good" "$work/bad" --wire "$work/full" "$work/good" < /dev/null
if [ "$(sed 's/ --cases [^ ]* / --cases FOLDER /' "$work/called")" = 'afs_top: try --cases FOLDER -- replay --wire' ]; then
    pass
else
    fail "a look at four files: the kit is called by $(cat "$work/called")"
fi

wanted 125
prints "== $work/silent" "== $work/good" 'a text'
tells "$not_proved" "afscell: $work/silent ended with status 125" 'checked: no-answer: the program wrote too much' \
    "afscell: the kit doesn't know how it ends: case=000001 run=no-answer proved=no"
launch 'a look at a file to which the kit has no answer' look "$work/silent" "$work/good" < /dev/null

wanted 125
prints "== $work/good" 'a text' "== $work/stop" "== $work/good"
tells "$not_proved" "afscell: the kit did not play $work/stop" "afscell: the kit did not play $work/good" 'stopped'
echo '# stops the kit' > "$work/stop"
launch 'a look in which the kit stops' look "$work/good" "$work/stop" "$work/good" < /dev/null

# A made script needs no input.
rm -f "$work/called"
wanted 0
tells "$not_proved"
by_variable launch 'a look at a made script' gen 4 < "$work/good"
if [ "$(sed 's/ --cases [^ ]* / --cases FOLDER /' "$work/called")" = 'afs_top: try --cases FOLDER -- gen 4' ]; then
    pass
else
    fail "a look at a made script: the kit is called by $(cat "$work/called")"
fi

wanted 0
prints 'a text'
tells "$not_proved"
by_variable launch 'a look at the input' replay < "$work/good"
by_variable over_pipe launch 'a look at a stream' replay < "$work/good"
wanted 3
tells "$not_proved" 'script: line 3: Word' '  line 3: "bad  line"' "  Word: $(rule Word) (docs/formats.md has an example)"
by_variable launch 'a look at a bad script' replay < "$work/bad"

wanted 6
tells "$not_proved" 'disk fault' "afscell: there is no folder $work/none for the disks"
by_variable launch 'a look at a disk fault' replay --disks "$work/none" < "$work/faulty"

# The kit tries the program in another folder, so that of the disks gets its whole path.
rm -f "$work/called"
wanted 0
prints 'a text'
tells "$not_proved"
by_variable launch 'a look with disks' replay --disks=disks --wire < "$work/good"
by_variable launch 'a look with disks by their whole path' replay --disks "$work/disks" < "$work/good"
by_variable launch 'a look with disks in a folder whose name is no text' replay --disks "$bytes" < "$work/good"
printf 'afs_top: try --cases FOLDER -- replay %s\n' "--wire --disks $top/disks" "--disks $work/disks" '--disks LINK' > "$work/calls"
if sed -e 's/ --cases [^ ]* / --cases FOLDER /' -e "s| $work/tmp/[^/ ]*/folder\$| LINK|" "$work/called" | cmp -s - "$work/calls"; then
    pass
else
    fail "a look with disks: the kit is called by $(cat "$work/called")"
fi

: > "$home/crates/afs_top/refuse"
wanted 125
tells "$not_proved" 'error: no program' 'afscell: the kit could not try the program'
launch 'a look at sources that are no program' look "$work/good" < /dev/null
rm -f "$home/crates/afs_top/refuse"

# ---- the program, where it is built

built=crates/afs_top/out/afs_top
# The program refuses the same words, and those that are no text. Those that have a form may meet a disk fault, where there is no
# such folder.
program_takes() {
    has_form=$1
    name=$2
    shift 2
    status=0
    "$built" "$@" > "$work/out" 2> "$work/err" || status=$?
    taken=form
    if [ "$has_form" = bytes ]; then has_form=none; fi
    if [ "$status" = 2 ] && [ ! -s "$work/out" ] && [ "$(cat "$work/err")" = "$usage" ]; then taken=none; fi
    if [ "$taken" = "$has_form" ]; then pass; else fail "the program and $name: status $status"; fi
}

# what the example prints is what its row wants
sed -e '1,/^----$/d' -e '/^---- wire$/,$d' tests/rows/example_open_close.row > "$work/text"
if [ -x "$built" ]; then
    each_words program_takes
else
    echo "skipped: the program and its words (it isn't built)"
fi
# It runs at once where it is proved. Where a source is newer, these rows fail: a kit that refuses all stands here now, so that
# nothing is built in its place.
if [ -e crates/afs_top/out/afscell.built ]; then
    launcher=./afscell
    printf '#!/bin/sh\nexit 1\n' > "$work/kit/rt"
    wanted 0
    cat "$work/text" >> "$work/want.out"
    launch_at_once 'the proved program' replay < examples/open_close.afs
    printf 'cell 1\nservers 1\nclients 1 \n' > "$work/bad"
    wanted 3
    tells 'script: line 3: Word' '  line 3: "clients 1 "' "  Word: $(rule Word) (docs/formats.md has an example)"
    launch_at_once 'the proved program and a bad script' replay < "$work/bad"
    over_pipe launch_at_once 'the proved program and a bad script, over a pipe' replay < "$work/bad"
    rm -f "$work/$bytes/seen"
    wanted 0
    cat "$work/text" >> "$work/want.out"
    launch_at_once 'the proved program and a folder whose name is no text' replay --disks "$work/$bytes" < examples/open_close.afs
    if [ -s "$work/$bytes/node-1" ]; then pass; else fail 'a folder whose name is no text has no disk'; fi
else
    echo "skipped: the proved program (it isn't built)"
fi

# ---- one first look, where there is the kit

if command -v rt > /dev/null 2>&1; then
    printf 'cell 1\nservers 1\nclients 1 \n' > "$work/bad"
    wanted 3
    prints '== examples/open_close.afs'
    cat "$work/text" >> "$work/want.out"
    prints "== $work/bad"
    tells "$not_proved" "afscell: $work/bad ended with status 3" 'script: line 3: Word' '  line 3: "clients 1 "' \
        "  Word: $(rule Word) (docs/formats.md has an example)"
    status=0
    TMPDIR=$work/tmp ./afscell look examples/open_close.afs "$work/bad" > "$work/out" 2> "$work/err" < /dev/null || status=$?
    judge 'a first look at two files'
else
    echo 'skipped: a first look (there is no kit)'
fi

echo "$passed passed, $failed failed"
[ "$failed" -eq 0 ]
