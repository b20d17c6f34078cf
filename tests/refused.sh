#!/usr/bin/env bash
# Where the must-fail edits are refused. `rt ci` wants a refusal anywhere; tests/refused.txt names, for each edit of every crate, the first
# fact that no longer holds. This compares it with what rt said of each: an edit refused elsewhere, one that is not refused, an edit
# without a line and a line without an edit fail. (The edits of tests/across name their theorem themselves.)
#   bash tests/refused.sh [LOG]        LOG is what `rt ci` or `rt must-fail` printed; without it `rt must-fail` is asked, which tries again
#                                      only what has changed since either
#   bash tests/refused.sh list [LOG]   the lines as tests/refused.txt must have them, in the order of crates.txt
set -u
cd "$(dirname "$0")/.." || exit 2
mode=compare
[ "${1:-}" != list ] || { mode=list && shift; }
said=${1:-}
if [ -z "$said" ]; then
    said=$(mktemp) || exit 2
    trap 'rm -f "$said"' EXIT
    rt must-fail >"$said" 2>&1 </dev/null
fi
[ -r "$said" ] || exit 2
export LC_ALL=C

# The function that a line of a source file is in, as the checker names it. One begins with its attributes.
function_at() { # CRATE FILE LINE
    local module=${2%.rt}
    case $module in
    lib | main) module= ;;
    esac
    module=${module//\//::}
    awk -v line="$3" -v path="$1::${module:+$module::}" '
        NR > line && !ahead { exit }
        NR == line && /^ *#\[/ { ahead = 1 }
        /^}/ { type = "" }
        /^impl/ { type = $0; sub(/^impl(<[^>]*>)? */, "", type); sub(/.* for /, "", type); sub(/[ <{].*/, "", type); type = type "::" }
        /^ *((pub|pub\([a-z]+\)|const|unsafe|extern "C") )*fn / {
            name = $0; sub(/^ *((pub|pub\([a-z]+\)|const|unsafe|extern "C") )*fn /, "", name); sub(/[^A-Za-z0-9_].*/, "", name)
            within = type name
            if (ahead) exit
        }
        END { print path within }' "crates/$1/src/$2"
}

# The place of what rt said of an edit, as tests/refused.txt has it. rt passes over what only rests on something that was refused, and
# cuts its line: a goal whose name is cut ends in dots. What is not refused, or nowhere, begins with a question mark, and no line may.
place() { # CRATE WORDS
    local refused='^refused, as it must be( \(only (by a limit|because)[^)]*\))?(: (.*))?$'
    local in_file='^(note: )?(\./)?((proofs|specs)/[^:]*):[0-9]+:[0-9]+: error: (`([^`]*)`)?'
    local in_code='^(note: )?(\./)?src/([^:]*\.rt):([0-9]+):[0-9]+: '
    local goal='\(`([^` ]*)(`\))?' how at name
    [[ $2 =~ $refused ]] || { echo "? ${2:-nothing is said of it}" && return; }
    how=${BASH_REMATCH[2]} at=${BASH_REMATCH[4]}
    case $how in
    'by a limit') how='only by a limit: ' ;;
    because) how='only since a name is gone: ' ;;
    esac
    if [[ $at =~ $in_file ]]; then
        name=$1/${BASH_REMATCH[3]}
        # a function's proof has a part for each goal
        [[ ${BASH_REMATCH[3]} != proofs/*/* ]] || name+=${BASH_REMATCH[6]:+ ${BASH_REMATCH[6]}}
    elif [[ $at =~ $in_code ]]; then
        name=$(function_at "$1" "${BASH_REMATCH[3]}" "${BASH_REMATCH[4]}")
        if [[ $at =~ $goal ]]; then name+=" ${BASH_REMATCH[1]}" && [ -n "${BASH_REMATCH[2]}" ] || name+=..; fi
    else
        name="? $at"
    fi
    echo "$how$name"
}

# A line for each edit, as in tests/refused.txt.
found() {
    local crate edit label line
    for crate in $(sed -n 's/^\([a-z0-9_]*\)[ :].*/\1/p' crates.txt); do
        for edit in "crates/$crate"/must-fail/*.edit; do
            [ -f "$edit" ] || continue
            label=$crate/$(basename "$edit" .edit)
            line=$(grep -m 1 -F "rt: must-fail $label.edit: " "$said")
            echo "$label $(place "$crate" "${line#*.edit: }")"
        done
    done
}

if [ "$mode" = list ]; then
    found
    exit
fi
named=$(grep -v -e '^#' -e ' ? ' tests/refused.txt | sort) && found=$(found | sort) || exit 2
other=$(comm -3 <(echo "$named") <(echo "$found") | sed -e 's/^\t/found: /' -e t -e 's/^/named: /' | sort -k 2)
[ -z "$other" ] || echo "$other"
passed=$(comm -12 <(echo "$named") <(echo "$found") | grep -c .)
failed=$(echo "$other" | cut -d ' ' -f 2 | sort -u | grep -c .)
echo "$passed passed, $failed failed"
[ "$failed" -eq 0 ]
