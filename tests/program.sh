#!/usr/bin/env bash
# First the lines that are believed and not proved, and the tree program by itself. Then ./list as a user runs it: the examples of
# README.md and examples/README.md letter by letter, files of each kind, each exit status, where a stream is wrong, a text that cannot
# be written or that nobody reads on; then, with stand-ins for the programs and for rt, what it says while it proves and builds, and
# what it does where that fails. tests/compare.sh holds what the programs write to the independent programs. The last line is
# 'N passed, M failed'.
set -u
cd "$(dirname "$0")/.." || exit 2
. tests/host.sh
out=target/tests/program
rm -rf "$out" && mkdir -p "$out" || exit 2
need_program
pairs=examples/streams/pairs.stream
names=examples/streams/names
printf 'records 11\nrows 3\n4 5\n8 13\n11 13\n' >"$out/pairs"

# lines LABEL NUMBER: so many lines were said on standard error, and none of them is empty
lines() {
    same "$1: lines on standard error" <(grep -c . "$out/said"; grep -c '^$' "$out/said") <(printf '%d\n0\n' "$2") || cat "$out/said"
}

# bounded COMMAND ..: ended where it runs on, and a closed pipe ends it, also where whatever runs this script has that signal ignored
bounded() { timeout "$patience" env --default-signal=PIPE "$@"; }

# ---- what is read and not proved

# No contract says what a call of the system did, nor that the input named at a call is the one that was read (docs/PROMISES.md). So
# each line of a program's code that calls the system, takes bytes, names the input or hands it down stands in tests/believed.txt too,
# and each of any other room that calls the system: who changes one, or adds one, sees it here and reads on.
# What calls the system has the handle that main is given, or calls a reader or a writer of std. Left out are the lines that only name an
# array or a model, and the two calls of text's own `read_pad` and `read_branch`.
system='\b(std|io|libc|os|rt|HostRuntime|Read|Write|stdin|stdout|stderr)\b|\.(read|write|flush)'
plain=':(use std::(array|marker::Model)|[[:space:]]*writing\.read_(pad\(\)|branch\(Number::new\(\*label\)\)));$'
# code_lines WORDS: the lines of code that have one of them, each behind its file
code_lines() { grep -rE --include='*.rt' "$1" crates/*/src | grep -vE ":[[:space:]]*(//|requires|ensures|ghost)|$plain"; }
read_lines() {
    # a call or a head with its type parameters; the page and the count hold the input, and a text the bytes
    local calls='\b(tell|answer|set_of|list|rows|put_line|make_room|pass_on|hand_on|records_of|nothing|read_full|write_or_tell|Unwritten)(<[^(]*>)?\('
    local bytes='&(mut )?\[u8|\bText<|\b(Page|Handed)\b' programs='^crates/(list|tree)/'
    {
        code_lines "$system" | grep -vE "$programs"
        code_lines "$system|$calls|\binput\b|$bytes" | grep -E "$programs"
    } | sort -s -t : -k 1,1 | sed -e 's|^crates/||' -e 's|/src/|/|'
}
same "the rooms that can call the system" <(code_lines "$system" | cut -d / -f 2 | sort -u) <(printf 'lines\nlist\ntree\n')
same "what is read and not proved" <(read_lines) <(grep -v '^#' tests/believed.txt)

# ---- the tree program

need_tree
printf '9(5 6) ! // begins no comment\n' >"$out/typed.tree"
printf '\1\0\1\0\1\0\2\6\2\5\1\0\2\11' >"$out/typed.records"
prints "a typed tree" 0 "$out/typed.records" "${tree[@]}" <"$out/typed.tree"
lines "a typed tree" 0
for text in '' '9(5 6' '9(5 6))' '9 9' '05' '64' '9(5/6)'; do
    prints "the text '$text'" 0 <(echo 'refused 15') "${tree[@]}" <<<"$text"
    lines "the text '$text'" 0
done
# blanks NUMBER: the typed tree, and blanks up to so many bytes
blanks() { printf "%-$1s" "$(cat "$out/typed.tree")"; }
prints "a text of 65,536 bytes" 0 "$out/typed.records" "${tree[@]}" < <(blanks 65536)
prints "a text of 65,537 bytes" 0 <(echo 'refused 14') "${tree[@]}" < <(blanks 65537)
# children NUMBER: a node with so many children
children() { printf '9(' && printf ' 63%.0s' $(seq "$1") && printf ')'; }
same "the longest records" <(children 2046 | "${tree[@]}" | wc -c) <(echo 8190)
prints "2,048 nodes" 0 <(echo 'refused 15') "${tree[@]}" < <(children 2047)
for text in "$out/typed.tree" /dev/null; do
    prints "the tree program, $text onto a full device" 0 /dev/null bash -c '"$@" >/dev/full' full "${tree[@]}" <"$text"
    same "what it says, $text onto a full device" "$out/said" <(echo 'tree: the records could not be written')
done

# ---- README.md

# command_of FILE: the command ./list that it shows
command_of() { sed -n 's/^    \(\.\/list .*\)/\1/p' "$1"; }
readme=$(command_of README.md)
# shown LANGUAGE [FILE]: the first block of this language behind the command, in README.md or in FILE
shown() {
    awk -v fence='```'"$1" '
        /^    \.\/list / { seen = 1 }
        /^```/ { inside = !inside; of = inside && $0 == fence; if (!inside && shown) exit; next }
        seen && of { shown = 1; print }' "${2:-README.md}"
}
shown '' >"$out/shown"
[ -n "$readme" ] && [ -s "$out/shown" ] || give_up "README.md shows no command ./list, or not what it prints"
same "README's tree" <(shown tree) "$names.tree"
# brings the programs up to date, which the next one then need not say
bash -c "$readme" >/dev/null 2>&1
prints "README's example" 0 "$out/shown" bash -c "$readme"
lines "README's example" 0
# bash then warns on standard error, which is no failure
prints "README's example in a locale that the host lacks" 0 "$out/shown" env LC_ALL=none ./list "$names.tree" "$names.txt"
bash examples/streams/bytes.sh <"$names.txt" >"$out/names.query"
{ "${tree[@]}" <"$names.tree" && cat "$out/names.query"; } >"$out/names.stream"
# examples/streams/names.md, 'Pads stand in no row'
{ cat "$names.txt" && echo '17 0 1 1'; } >"$out/pads.txt"
prints "README's example with a rule that would mark pads" 0 "$out/shown" ./list "$names.tree" "$out/pads.txt"

# ---- what a file is

prints "a tree and a query in bytes" 0 "$out/shown" ./list "$names.tree" "$out/names.query"
prints "both in bytes" 0 "$out/shown" ./list <("${tree[@]}" <"$names.tree") "$out/names.query"
prints "both in bytes, in one file" 0 "$out/shown" ./list "$out/names.stream"
prints "both in bytes, on standard input" 0 "$out/shown" ./list <"$out/names.stream"
prints "one file of bytes" 0 "$out/pairs" ./list "$pairs"
prints "one file of text" 0 "$out/pairs" ./list "${pairs%.stream}.txt"
sed '/^16/,$d' "${pairs%.stream}.txt" >"$out/pairs tree.txt"
sed -n '/^16/,$p' "${pairs%.stream}.txt" >"$out/pairs query.txt"
prints "two files of text, with blanks in their names" 0 "$out/pairs" ./list "$out/pairs tree.txt" "$out/pairs query.txt"
lines "two files of text" 0

# ---- exit status

prints "an empty stream" 1 <(echo 'refused 1 at 0') ./list /dev/null
lines "an empty stream" 0
prints "a stream that is too long" 1 <(echo 'refused 14') ./list <(head -c 16385 /dev/zero)
# to_end FILE: with bounds on its time and on the files that it writes, which hold where ./list does not bound what it reads
to_end() { (ulimit -f 1024 && bounded ./list /dev/null "$1"); }
prints "a file without end" 1 <(echo 'refused 14') to_end /dev/zero
# a slash that is in no comment
echo '9(5 / 6)' >"$out/slash.tree"
prints "a tree that is refused" 1 <(echo 'refused 15') ./list "$out/slash.tree" "$names.txt"
lines "a tree that is refused" 0
{ cat "$names.tree" && head -c 65536 /dev/zero | tr '\0' ' '; } >"$out/long.tree"
prints "a tree that is too long" 1 <(echo 'refused 14') ./list "$out/long.tree" "$names.txt"
lines "a tree that is too long" 0
head -c 65536 "$out/long.tree" >"$out/enough.tree"
prints "a tree just short enough" 0 "$out/shown" ./list "$out/enough.tree" "$names.txt"
mkdir "$out/folder.tree"
for missing in "$out/none" "$out/none.tree" "$out/none.txt" "$out" "$out/folder.tree"; do
    prints "no file $missing" 2 /dev/null ./list "$missing"
    lines "no file $missing" 1
    prints "no tree $missing" 2 /dev/null ./list "$missing" "$names.txt"
    lines "no tree $missing" 1
    prints "no query $missing" 2 /dev/null ./list "$names.tree" "$missing"
    lines "no query $missing" 1
done
prints "three files" 2 /dev/null ./list "$names.tree" "$names.txt" "$names.txt"
lines "three files" 1
# wrong_word WORD: in the last of three lines
wrong_word() {
    printf '16 2 4 # head\n\n17 %s 0 0\n' "$1" >"$out/wrong.txt"
    prints "$1 in a text" 2 /dev/null ./list "$names.tree" "$out/wrong.txt"
    same "$1 in a text: what is said" "$out/said" <(printf 'list: %s: line 3: %q is no number from 0 to 255\n' "$out/wrong.txt" "$1")
}
for word in 256 -1 05 x '*' 1.5 $'5\r'; do wrong_word "$word"; done
printf '16 2 4\n17 1\0002 0 0\n' >"$out/zero.txt"
prints "a zero byte in a text" 2 /dev/null ./list "$names.tree" "$out/zero.txt"
same "a zero byte in a text: what is said" "$out/said" <(printf 'list: %s: line 2: 1\\?2 is no number from 0 to 255\n' "$out/zero.txt")
prints "no room for a stream" 2 /dev/null env TMPDIR="$out/none" ./list "$names.tree" "$names.txt"
lines "no room for a stream" 1
prints "no room needed" 0 "$out/pairs" env TMPDIR="$out/none" ./list "$pairs"
mkdir "$out/rooms"
for files in "$names.tree $names.txt" "$out/slash.tree $names.txt" "$names.tree $out/wrong.txt" "$names.txt $names.txt"; do
    # shellcheck disable=SC2086 # two words
    TMPDIR=$out/rooms ./list $files >/dev/null 2>&1
done
same "what is left behind" <(ls "$out/rooms") /dev/null

# ---- where a stream is wrong

# refuses LABEL LINE SAID FILES ..: ./list prints the line, which tells a refusal, and says SAID on standard error, or nothing
refuses() {
    local label=$1 line=$2 said=$3
    shift 3
    prints "$label" 1 <(echo "$line") bounded ./list "$@"
    same "$label: what is said" "$out/said" <(printf '%s' "${said:+$said$'\n'}")
}
# changed NAME SCRIPT [FILES ..]: sets `wrong`, a text that sed makes of the query below, or of these files
changed() {
    local script=$2
    wrong=$out/$1
    shift 2
    sed "$script" "${@:-$query}" >"$wrong"
}

mistaken=$(command_of examples/README.md)
shown '' examples/README.md >"$out/shown_mistaken"
[ -n "$mistaken" ] && [ -s "$out/shown_mistaken" ] || give_up "examples/README.md shows no command ./list, or not what it prints"
prints "the wrong query of examples/README.md" 1 "$out/shown_mistaken" bash -c "$mistaken 2>&1"
sed -n 's/^| `\.\/list \([^`]*\)` | `\([^`]*\)` | `\([^`]*\)` .*/\1|\2|\3/p' examples/README.md >"$out/table"
[ -s "$out/table" ] || give_up "examples/README.md has no table of commands ./list"
while IFS='|' read -r files line said; do
    # shellcheck disable=SC2086 # one file or two
    refuses "./list $files of examples/README.md" "$line" "$said" $files
done <"$out/table"

# The tree has 6 bytes, of lines 2, 3 and 4. The query has 19: its records begin at 0, 3, 7, 11 and 17, behind the tree at 6, 9, 13, 17
# and 23, and all ends at 25.
typed=$out/tree.txt query=$out/query.txt comment=$out/comment.txt
printf '# two leaves under a branch\n1 5\n1 5\n2 9\n' >"$typed"
cat >"$query" <<'QUERY'
# 99 in a comment is no number

  16 1 4   # head

# leaf rules, a branch rule and the accepting state
17 5 0 0
17 5 1 1 # at place 1
18 9 0 1 0 2
19 2
# 99
QUERY
echo '# 99' >"$comment"
prints "nothing wrong" 0 <(printf 'records 2\nrows 1\n0\n') ./list "$typed" "$query"
lines "nothing wrong" 0

# the line that a byte came from
at() { prints "the line of byte $1" 0 <(echo "$2") bash examples/streams/bytes.sh at "$1" <"$query"; }
for byte in 0 1 2; do at "$byte" '3:   16 1 4   # head'; done
at 3 '6: 17 5 0 0'
at 6 '6: 17 5 0 0'
at 7 '7: 17 5 1 1 # at place 1'
at 18 '9: 19 2'
at 19 '9: no number behind this line: 19 2'
prints "a byte beyond the end" 2 /dev/null bash examples/streams/bytes.sh at 20 <"$query"
same "a byte beyond the end: what is said" "$out/said" <(echo 'position 20 is beyond the end, which is 19')
prints "the end where no byte is" 0 <(echo 'no number in this text') bash examples/streams/bytes.sh at 0 <"$comment"
prints "a byte where none is" 2 /dev/null bash examples/streams/bytes.sh at 1 <"$comment"
prints "a byte before a wrong word" 2 /dev/null bash examples/streams/bytes.sh at 0 < <(printf '1 5\nx\n')
same "a byte before a wrong word: what is said" "$out/said" <(echo 'line 2: x is no number from 0 to 255')
for words in 'at' '3' 'to 3' 'at 3 4' 'at x' 'at -1' 'at 05' 'at 18446744073709551616'; do
    # shellcheck disable=SC2086 # the words one by one
    prints "bytes.sh $words" 2 /dev/null bash examples/streams/bytes.sh $words <"$query"
    same "bytes.sh $words: what is said" "$out/said" <(echo 'usage: bytes.sh [at POSITION]')
done

# a record of the query
changed flag.txt '7s/1 1/2 1/'
refuses "a flag out of range" 'refused 3 at 13' "$wrong:7: 17 5 2 1 # at place 1" "$typed" "$wrong"
refuses "the same behind bracketed text" 'refused 3 at 69' "$wrong:7: 17 5 2 1 # at place 1" "$names.tree" "$wrong"
bash examples/streams/bytes.sh <"$typed" >"$out/tree.bytes"
refuses "the same behind bytes" 'refused 3 at 13' "$wrong:7: 17 5 2 1 # at place 1" "$out/tree.bytes" "$wrong"
# tee opens the pipe itself, so that it is bounded where nobody reads
mkfifo "$out/pipe.txt" || exit 2
bounded tee "$out/pipe.txt" <"$wrong" >/dev/null &
refuses "the same in a pipe, which is read once" 'refused 3 at 13' "$out/pipe.txt:7: 17 5 2 1 # at place 1" "$typed" "$out/pipe.txt"
wait
changed 'one file.txt' '11s/1 1/2 1/' "$typed" "$query"
refuses "the same in one file, with a blank in its name" 'refused 3 at 13' "$wrong:11: 17 5 2 1 # at place 1" "$wrong"
changed kind.txt '8s/18/20/'
refuses "an unknown kind" 'refused 3 at 17' "$wrong:8: 20 9 0 1 0 2" "$typed" "$wrong"
changed number_more.txt '6s/$/ 3/'
refuses "a number too many" 'refused 3 at 13' "$wrong:6: 17 5 0 0 3" "$typed" "$wrong"
changed number_less.txt '7s/5 //'
refuses "a number too few" 'refused 3 at 13' "$wrong:7: 17 1 1 # at place 1" "$typed" "$wrong"
changed cut.txt '9s/ 2//'
refuses "a record that is cut" 'refused 3 at 23' "$wrong:9: 19" "$typed" "$wrong"
changed head.txt '10a 16 1 4 # again'
refuses "a second head" 'refused 3 at 25' "$wrong:11: 16 1 4 # again" "$typed" "$wrong"
changed no_head.txt '3s/16/# 16/'
refuses "no head first" 'refused 3 at 6' "$wrong:6: 17 5 0 0" "$typed" "$wrong"
{ cat "$query" && printf '19 2'; } >"$out/accepted.txt"
refuses "a state accepted twice, in a line without end" 'refused 4 at 25' "$out/accepted.txt:11: 19 2" "$typed" "$out/accepted.txt"
changed two_records.txt '9s/$/ 19 2/'
refuses "two records in a line, the second wrong" 'refused 4 at 25' "$wrong:9: 19 2 19 2" "$typed" "$wrong"
# 1,000 leaf rules, of 63 labels and 16 flags
{
    echo '16 4 1'
    for rule in $(seq 0 999); do echo "17 $((rule / 16)) $((rule % 16)) 0"; done
    printf '\n# behind all\n17 3 2 0 # said before\n'
} >"$out/far.txt"
refuses "a rule said twice, far behind" 'refused 4 at 4009' "$out/far.txt:1004: 17 3 2 0 # said before" "$typed" "$out/far.txt"

# a record of the tree
changed label.txt '3s/5/64/' "$typed"
refuses "a label over 63" 'refused 1 at 2' "$wrong:3: 1 64" "$wrong" "$query"
changed branch.txt '3s/1/2/' "$typed"
refuses "a branch of one subtree" 'refused 1 at 2' "$wrong:3: 2 5" "$wrong" "$query"
changed cut_tree.txt '4s/ 9//' "$typed"
refuses "a tree that is cut" 'refused 1 at 4' "$wrong:4: 2" "$wrong"
cut=$wrong
changed arity_two.txt '3s/1 4/2 4/'
refuses "a head whose kind was taken for a label" 'refused 1 at 6' "$wrong:3:   16 2 4   # head" "$cut" "$wrong"
{ printf '1 5\n%.0s' $(seq 4095) && echo 2; } >"$out/nodes.txt"
refuses "a 4,096th node" 'refused 2 at 8190' "$out/nodes.txt:4096: 2" "$out/nodes.txt"

# the tree's end, and the stream's
changed subtrees.txt '4d' "$typed"
refuses "two subtrees" 'refused 1 at 4' "$query:3: the tree has ended here:   16 1 4   # head" "$wrong" "$query"
refuses "two subtrees and no query" 'refused 1 at 4' "$wrong:3: no number behind this line: 1 5" "$wrong"
bash examples/streams/bytes.sh <"$wrong" >"$out/subtrees.bytes"
refuses "two subtrees in bytes" 'refused 1 at 4' "$out/names.query: at 0, where the tree ends" "$out/subtrees.bytes" "$out/names.query"
changed subtrees_and_query.txt '4d' "$typed" "$query"
refuses "two subtrees in one file" 'refused 1 at 4' "$wrong:6: the tree has ended here:   16 1 4   # head" "$wrong"
echo '1 5 1 5 16 1 4' >"$out/one_line.txt"
refuses "two subtrees and the head in one line" 'refused 1 at 4' "$out/one_line.txt:1: the tree has ended here: 1 5 1 5 16 1 4" "$out/one_line.txt"
refuses "no tree" 'refused 1 at 0' "$query:3: the tree has ended here:   16 1 4   # head" "$query"
refuses "a tree of comment" 'refused 1 at 0' "$query:3: the tree has ended here:   16 1 4   # head" "$comment" "$query"
refuses "nothing but comment" 'refused 1 at 0' "$comment: no number in this text" "$comment"
refuses "a typed tree and no query" 'refused 3 at 6' "$typed:4: no number behind this line: 2 9" "$typed"
refuses "a query of comment" 'refused 3 at 6' "$comment: no number in this text" "$typed" "$comment"
refuses "bracketed text and no query" 'refused 3 at 62' "$names.tree: at 62 of its records, where the stream ends" "$names.tree"
refuses "bytes and nothing" 'refused 3 at 6' '/dev/null: at 0, where the stream ends' "$out/tree.bytes" /dev/null

# files without lines
refuses "a query behind a query" 'refused 3 at 123' "$out/names.query: at 0" "$pairs" "$out/names.query"
refuses "a tree behind a query" 'refused 3 at 123' "$names.tree: at 0 of its records" "$pairs" "$names.tree"
head -c 128 "$out/names.query" >"$out/names.cut"
refuses "bytes that are cut" 'refused 3 at 189' "$out/names.cut: at 127" "$names.tree" "$out/names.cut"
cat "$out/tree.bytes" "$out/names.cut" >"$out/cut.stream"
refuses "one file of bytes" 'refused 3 at 133' '' "$out/cut.stream"
refuses "standard input" 'refused 3 at 133' '' <"$out/cut.stream"

# refusals without a position
{ printf '1 5\n%.0s' $(seq 64) && printf '2 9\n%.0s' $(seq 63) && echo '16 4 16'; } >"$out/work.txt"
refuses "too little work" 'refused 5' '' "$out/work.txt"
yes 0 | head -n 16385 >"$out/long.txt"
refuses "a typed stream that is too long" 'refused 14' '' "$out/long.txt"

# ---- long listings

# leaves NUMBER RECORDS: so many times a leaf joined to the tree before
leaves() { printf "$2%.0s" $(seq "$1"); }
# all_rows FIRST SECOND THIRD FOURTH: the stream of a comb with so many leaves for each place, of which all rows are accepted
all_rows() {
    printf '\1\5'
    leaves "$(($1 - 1))" '\1\5\2\11' && leaves "$2" '\1\6\2\11' && leaves "$3" '\1\7\2\11' && leaves "$4" '\1\10\2\11'
    printf '\20\4\1\21\5\0\0\21\5\1\0\21\6\0\0\21\6\2\0\21\7\0\0\21\7\4\0\21\10\0\0\21\10\10\0\22\11\0\0\0\0\23\0'
}
all_rows 20 20 20 10 >"$out/long.stream"
all_rows 250 125 62 30 >"$out/endless.stream"
# a minute and more of listing; its head by hand, a leaf with the tree before it making 2, 4, 8 or 16 records
head_of_endless=$(printf 'records %d\nrows %d' $((2 * 250 - 1 + 4 * 125 - 2 + 8 * 62 - 4 + 16 * 30 - 8)) $((250 * 125 * 62 * 30)))

"${program[@]}" <"$out/long.stream" >"$out/long"
prints "a long listing handed on" 0 "$out/long" ./list "$out/long.stream"
same "its rows" <(sed -n 2p "$out/long"; wc -l <"$out/long") <(printf 'rows 80000\n80002\n')

# reads_two: what a reader gets that goes away after two lines, and with what ./list then ends
reads_two() {
    bounded ./list "$1" | head -n 2
    echo "list ended with ${PIPESTATUS[0]}"
}
prints "a reader that goes away" 0 <(printf '%s\nlist ended with 141\n' "$head_of_endless") reads_two "$out/endless.stream"
lines "a reader that goes away" 0

# ---- a text that cannot be written

# to_full COMMAND ..: a device that takes nothing
to_full() { bounded "$@" >/dev/full; }
for stream in "$pairs" "$out/long.stream" "$out/endless.stream" /dev/null; do
    prints "the program, $stream onto a full device" 0 /dev/null to_full "${program[@]}" <"$stream"
    lines "the program, $stream onto a full device" 1
    prints "./list, $stream onto a full device" 2 /dev/null to_full ./list "$stream"
    lines "./list, $stream onto a full device" 1
done
for text in "$names.tree" "$out/slash.tree"; do
    prints "./list, $text onto a full device" 2 /dev/null to_full ./list "$text" "$names.txt"
    lines "./list, $text onto a full device" 1
done

# ---- with stand-ins

# A repository of three rooms that the listing program needs, one more for the program tree, and one that neither does; the host is
# said to be one that runs the stand-ins. It stands elsewhere, since rt wants one crates.txt in a repository.
copy=$(mktemp -d) || exit 2
trap 'rm -rf "$copy"' EXIT
mkdir -p "$copy/crates/"{low,other,middle,list,tree} "$copy/bin" && cp list "$copy"
printf '# rooms\nlow:\nother: low\nmiddle: low io\nlist: middle\ntree: middle\n' >"$copy/crates.txt"
# stand_in FILE: a program of these lines
stand_in() { { echo '#!/bin/sh'; cat; } >"$1" && chmod +x "$1"; }
echo 'echo x86_64' | stand_in "$copy/bin/uname"
in_copy() { PATH=$copy/bin:$PATH "$copy/list" "$pairs"; }
# with a tree that is typed
in_copy_typed() { PATH=$copy/bin:$PATH "$copy/list" "$names.tree" "$pairs"; }
log=$(readlink -f "$copy")/target/list.log
# begins NAMES: what is said before all else
begins() { echo "list: proved and built first: $1; the prover's words go to $log"; }
# in the folder of each room that is needed, once: a library's `rt lib`, or `rt run` of a program, which stays in out/
proves() {
    stand_in "$copy/bin/rt" <<'LINES'
name=$(basename "$PWD")
case $1:$name in
lib:low | lib:middle) mkdir -p out ;;
run:list | run:tree)
    echo "logic=proved and many words"
    mkdir -p out && cp "../../bin/stand_in_$name" "out/$name" && echo 'refused 1 at 0'
    ;;
*) exit 2 ;;
esac
LINES
}

printf 'printf "records 0\\nrows 0\\n"' | stand_in "$copy/bin/stand_in_list"
printf 'printf "\\1\\0"' | stand_in "$copy/bin/stand_in_tree"
proves
prints "not built yet" 0 <(printf 'records 0\nrows 0\n') in_copy
same "one line a room" "$out/said" <(begins list; printf '%d of 3 rooms proved\n' 1 2 3)
same "the log" <(grep -c 'many words' "$log") <(echo 1)
prints "built already" 0 <(printf 'records 0\nrows 0\n') in_copy
lines "built already" 0
mkdir "$copy/crates/low/src" && touch "$copy/crates/low/src/changed"
prints "a file that is newer" 0 <(printf 'records 0\nrows 0\n') in_copy
lines "a file that is newer" 4
prints "tree not built yet" 0 <(printf 'records 0\nrows 0\n') in_copy_typed
same "only tree is built" "$out/said" <(begins tree; printf '%d of 3 rooms proved\n' 1 2 3)
touch "$copy/crates/low/src/changed"
prints "a file that is newer than both" 0 <(printf 'records 0\nrows 0\n') in_copy_typed
same "both are built" "$out/said" <(begins 'list tree'; printf '%d of 4 rooms proved\n' 1 2 3 4)
prints "both built already" 0 <(printf 'records 0\nrows 0\n') in_copy_typed
lines "both built already" 0

printf 'echo "records 1"; kill -SEGV $$' | stand_in "$copy/crates/list/out/list"
prints "a signal" 139 <(echo 'records 1') in_copy
true | stand_in "$copy/crates/list/out/list"
prints "a program that says nothing" 2 /dev/null in_copy
lines "a program that says nothing" 1
printf 'kill -SEGV $$' | stand_in "$copy/crates/tree/out/tree"
prints "a signal in the program tree" 139 /dev/null in_copy_typed
true | stand_in "$copy/crates/tree/out/tree"
prints "a program tree that says nothing" 2 /dev/null in_copy_typed
lines "a program tree that says nothing" 1
# so a write that fails is told
printf 'printf "\\1"; echo "tree: not written" >&2' | stand_in "$copy/crates/tree/out/tree"
prints "a program tree that fails" 2 /dev/null in_copy_typed
same "its words" "$out/said" <(echo "list: $names.tree: tree: not written")

# on an Arm host a kit may have an emulator beside rt
there=$(readlink -f "$copy")
beside=$there/on/aarch64/toolchain
mkdir -p "$beside/bin" && echo 'echo aarch64' | stand_in "$copy/bin/uname"
printf 'echo "$@" >>"$(dirname "$0")/ran"; shift 3; exec "$@"' | stand_in "$beside/bin/qemu-x86_64"
for name in list tree; do cp "$copy/bin/stand_in_$name" "$copy/crates/$name/out/$name"; done
prints "an Arm host" 0 <(printf 'records 0\nrows 0\n') in_copy_typed
same "both programs under the emulator" "$beside/bin/ran" \
    <(for name in tree list; do echo "$beside/lib/ld-linux-x86-64.so.2 --library-path $beside/lib $there/crates/$name/out/$name"; done)
# the line is found without the emulator; the tree has two bytes
mkdir -p "$copy/examples/streams" && cp examples/streams/bytes.sh "$copy/examples/streams"
echo 'echo "refused 3 at 5"' | stand_in "$copy/crates/list/out/list"
in_copy_typed_both() { PATH=$copy/bin:$PATH "$copy/list" "$names.tree" "$query"; }
prints "a refusal on an Arm host" 1 <(echo 'refused 3 at 5') in_copy_typed_both
same "a refusal on an Arm host: what is said" "$out/said" <(echo "$query:6: 17 5 0 0")

rm "$copy/crates/list/out/list"
echo 'echo "logic=not-proved"; [ "$(basename "$PWD")" = low ]' | stand_in "$copy/bin/rt"
prints "a room that is not proved" 2 /dev/null in_copy
same "it names the log" "$out/said" <(begins list; echo "1 of 3 rooms proved"; echo "list: not proved and built: see $log")
end_checks
