#!/usr/bin/env bash
# Edits of `paper` that its worked cases let pass and the theorems of `laws`, or of `writings`, must refuse. `rt must-fail` tries an edit
# on its own crate only, so these are tried here: in a copy of the crates those below must still be proved, and the one named must not.
# An edit file has the lines of a must-fail edit, `old:` and `new:` once for each line of the text, `in: CRATE` where that is not `laws`,
# and `at: NAME`, the theorem or lemma where the refusal must stand first.
set -u
cd "$(dirname "$0")/.." || exit 2
log=$(mktemp) || exit 2
copy=
trap 'rm -rf "$log" "$copy"' EXIT

# check FOLDER CRATE: of a repository, what rt says goes to $log
check() { (cd "$1/crates/$2" && rt check) >"$log" 2>&1 </dev/null; }
first_error() { grep -m 1 ': error: ' "$log"; }

# The crates as they stand. A check in a copy begins with what these kept: rt finds that by itself.
for crate in laws writings; do
    check . "$crate" || {
        first_error || tail -n 1 "$log"
        echo "$crate is not proved as it stands"
        echo "0 passed, 1 failed"
        exit 1
    }
done

passed=0 failed=0
for edit in tests/across/*.edit; do
    label=$(basename "$edit" .edit)
    copy=$(mktemp -d) || exit 2
    crate=$(sed -n 's/^in: //p' "$edit")
    case ${crate:=laws} in
    laws) below='paper' ;;
    writings) below='paper laws' ;;
    esac
    for room in $below "$crate"; do
        mkdir -p "$copy/crates/$room" && cp -R "crates/$room/"{src,specs,proofs} "$copy/crates/$room/" || exit 2
        grep "^$room:" crates.txt >>"$copy/crates.txt"
    done
    file=$(sed -n 's/^file: //p' "$edit")
    OLD=$(sed -n 's/^old: //p' "$edit") NEW=$(sed -n 's/^new: //p' "$edit") awk '
        { text = text $0 "\n" }
        END {
            at = index(text, ENVIRON["OLD"])
            if (!at) exit 3
            printf "%s%s%s", substr(text, 1, at - 1), ENVIRON["NEW"], substr(text, at + length(ENVIRON["OLD"]))
        }' "$copy/crates/paper/$file" >"$copy/edited" && mv "$copy/edited" "$copy/crates/paper/$file" || {
        echo "$label: BAD EDIT"
        failed=$((failed + 1))
        rm -rf "$copy"
        continue
    }
    check "$copy" "$crate"
    status=$?
    # rt stamps a library that is proved and built
    proved=yes
    for room in $below; do [ -f "$copy/crates/$room/out/rlib/stamp" ] || proved=no; done
    where=$(sed -n 's/^at: //p' "$edit")
    first=$(first_error)
    if [ "$proved" = yes ] && [ "$status" -eq 1 ] && [[ $(grep '^logic=' "$log" | tail -n 1) = logic=not-proved* ]] &&
        [[ $first = *": error: \`$where\`"* ]]; then
        echo "$label: refused at $where, as it must be"
        passed=$((passed + 1))
    else
        echo "$label: NOT REFUSED at $where: ${first:-$(tail -n 1 "$log")}"
        failed=$((failed + 1))
    fi
    rm -rf "$copy"
done
echo "$passed passed, $failed failed"
[ "$failed" -eq 0 ]
