#!/usr/bin/env bash
# Makes a stream's bytes from its text: every number, 0 to 255, is one byte, and from '#' to the end of a line is comment.
#   bash examples/streams/bytes.sh <examples/streams/pairs.txt >examples/streams/pairs.stream
# Or says which line the byte at a position came from, as 'refused 3 at 40' names one: the line's number and its text.
#   bash examples/streams/bytes.sh at 40 <examples/streams/pairs.txt
# Positions are counted from 0, lines from 1. The end of the bytes is a position too, and of no line: the last that has a number is said.
# A word that is no such number is told with its line on standard error, and so is a position beyond the end; then nothing is written,
# and the exit status is 2.
set -uf

stop() {
    echo "$1" >&2
    exit 2
}

# a position that no byte has
position=-1
if [ $# -gt 0 ]; then
    # with more digits it is beyond every text, and may be more than bash can compare
    [ $# -eq 2 ] && [[ $1 = at && $2 =~ ^(0|[1-9][0-9]{0,8})$ ]] || stop 'usage: bytes.sh [at POSITION]'
    position=$2
fi
# found: the line of the last byte up to the position
bytes='' length=0 line=0 found=0 found_text=''
while IFS= read -r text || [ -n "$text" ]; do
    line=$((line + 1))
    for number in ${text%%#*}; do
        if ! [[ $number =~ ^(0|[1-9][0-9]{0,2})$ ]] || [ "$number" -gt 255 ]; then
            stop "$(printf 'line %d: %q is no number from 0 to 255' "$line" "$number")"
        fi
        printf -v byte '\\x%02x' "$number"
        bytes+=$byte
        [ "$length" -gt "$position" ] || found=$line found_text=$text
        length=$((length + 1))
    done
# read would drop a zero byte and join what stands around it
done < <(tr '\0' '?' 2>/dev/null)

if [ "$position" -lt 0 ]; then
    printf '%b' "$bytes"
elif [ "$position" -lt "$length" ]; then
    printf '%d: %s\n' "$found" "$found_text"
elif [ "$position" -gt "$length" ]; then
    stop "position $position is beyond the end, which is $length"
elif [ "$length" -gt 0 ]; then
    printf '%d: no number behind this line: %s\n' "$found" "$found_text"
else
    echo 'no number in this text'
fi
