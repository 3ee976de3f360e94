#!/bin/sh
# Runs the program over one small job for each command, again and again: the first run has its first allocation
# refused, the second its second, and so on, until a run has none left to refuse. Prints a table of how they ended.
#
# A run with a refusal may end in one of these ways, and in no other:
#   7   `sddc: out of memory`, with whole lines of what the job prints, and each file whole or not there; or, where the
#       program could not take the words of the command line, no line at all
#   0   as without the refusal, which the cache of operations passes over
#   5   a read fault, 6 a write fault, where the shelf of files found no memory for itself
# With several workers the calls of all threads are counted together. Which thread has the one of a number may differ
# from run to run, so the columns may too; how a run may end does not.
#
# It takes the program of this repository, or the one that the first word names, and wants a C compiler: a small
# library counts the calls of malloc and realloc, and refuses one of them. A run that does not end in a minute counts as
# one that ended in another way.
set -u
top=$(dirname -- "$(dirname -- "$(readlink -f -- "$0")")")
if [ $# -gt 0 ]; then
    program=$(readlink -f -- "$1")
else
    "$top/sddc" 2>/dev/null
    program=$top/crates/sd_cli/out/sd_cli
fi
[ -x "$program" ] || {
    echo "refused_memory: there is no program $program" >&2
    exit 1
}
work=$(mktemp -d) || exit 1
trap 'rm -rf "$work"' EXIT
mkdir "$work/in" "$work/ref" "$work/run"

cat >"$work/refuse.c" <<'END'
#include <stddef.h>
#include <stdlib.h>
#include <unistd.h>

void *__libc_malloc(size_t size);
void *__libc_realloc(void *old, size_t size);

static unsigned long calls, refused;

__attribute__((constructor)) static void begin(void) {
    const char *word = getenv("REFUSED");
    refused = word == NULL ? 0 : strtoul(word, NULL, 10);
}

// Says on descriptor 9 that a call was refused.
static int refuses(void) {
    unsigned long call = __atomic_add_fetch(&calls, 1, __ATOMIC_RELAXED);
    return call == refused && write(9, "x", 1) >= 0;
}

void *malloc(size_t size) { return refuses() ? NULL : __libc_malloc(size); }

void *realloc(void *old, size_t size) { return refuses() ? NULL : __libc_realloc(old, size); }
END
"${CC:-cc}" -O2 -shared -fPIC -o "$work/refuse.so" "$work/refuse.c" || exit 1

cd "$work/in" || exit 1
printf 'p dnf 4 2\n1 3 0\n2 4 0\n' >pairs
printf 'p dnf 4 2\n1 2 0\n3 4 0\n' >terms
printf 'p cnf 4 0\n' >none
printf 'p cnf 2 1\n1 5 0\n' >bad
printf 'vtree 7\nL 0 1\nL 2 2\nI 1 0 2\nL 4 3\nL 6 4\nI 5 4 6\nI 3 1 5\n' >tree
printf 'vtree 3\nL 0 1\nL 2 2\nI 1 0 2\n' >two
printf 'sdd 5\nL 0 0 -1\nL 1 2 2\nL 2 0 1\nT 3\nD 4 1 2 0 1 2 3\n' >part
printf 'sdd 4\nL 0 0 1\nL 1 2 2\nT 2\nD 3 1 2 0 1 0 2\n' >broken
printf 'aag 6 2 0 2 4\n2\n4\n7\n12\n6 9 11\n8 2 5\n10 3 4\n12 2 4\n' >adder
: >s
cp -- * "$work/ref" && cp -- * "$work/run" || exit 1
newline='
'

# Runs the words in the folder with the call of this number refused, 0 for none, and answers the status. What is
# printed gets one byte more, so that its last line end stays.
run() {
    cd "$1" && rm -f ./out ./other ./shape && cp "$work/in/s" . || exit 1
    # shellcheck disable=SC2086
    timeout 60 env REFUSED="$2" LD_PRELOAD="$work/refuse.so" "$program" $words \
        >"$work/out" 2>"$work/err" 9>"$work/refused"
    ended=$?
    out=$(cat "$work/out" && echo .)
    err=$(cat "$work/err" && echo .)
}

# Whether `out` is empty or a front of what the job prints, up to the end of a line.
has_whole_lines() {
    case ${out%.} in
    '' | *"$newline") ;;
    *) return 1 ;;
    esac
    case $ref_out in
    "${out%.}"*) ;;
    *) return 1 ;;
    esac
}

# Whether each file is as the job leaves it or not there; one may be a front, where its name is given.
has_whole_files() {
    while read -r only in folder name more; do
        case "$only $in $folder" in
        "Only in $work/ref:") ;;
        "Files $work/ref/$1 and")
            head -c "$(wc -c <"$work/run/$1")" "$work/ref/$1" | cmp -s - "$work/run/$1" || return 1
            ;;
        *) return 1 ;;
        esac
    done <"$work/diff"
}

# Whether the run with a refusal ended as it may.
is_allowed() {
    diff -rq "$work/ref" "$work/run" >"$work/diff"
    has_whole_lines || return 1
    fault=${err%"$newline".}
    case $ended in
    7) { [ "$fault" = "sddc: out of memory" ] || is_before_the_run; } && has_whole_files "" ;;
    5) [ "${fault%: read fault}" != "$fault" ] && has_whole_files "" ;;
    6)
        name=${fault#sddc: }
        [ "${fault%: write fault}" != "$fault" ] && has_whole_files "${name%: write fault}"
        ;;
    *) [ "$ended" -eq "$status" ] && [ "$out" = "$ref_out" ] && [ "$err" = "$ref_err" ] && [ ! -s "$work/diff" ] ;;
    esac
}

# Whether the run ended at 7 while the program still took the words of the command line, and with no line.
is_before_the_run() {
    [ "$ended" -eq 7 ] && [ "$out$err" = .. ]
}

row() {
    printf '| %s | %s | %s | %s | %s | %s | %s |\n' "$@"
}

# Refuses each allocation of the words in turn, over this script if there is one, and prints the row of this command.
# Without a refusal the job has to end as its name says, and there has to be an allocation to refuse.
refuse_each() {
    command=$1 words=$2
    [ $# -gt 2 ] && printf '%b' "$3" >"$work/in/s"
    run "$work/ref" 0
    status=$ended ref_out=$out ref_err=$err
    case $command in
    *'bad words') want=1 ;;
    *'a bad CNF') want=2 ;;
    *) want=0 ;;
    esac
    seven=0 early=0 same=0 shelf=0 wrong=0 number=1
    while run "$work/run" "$number" && [ -s "$work/refused" ]; do
        if ! is_allowed; then
            wrong=$((wrong + 1))
            echo "refused_memory: $command: allocation $number: status $ended, $err" >&2
        elif is_before_the_run; then
            early=$((early + 1))
        else
            case $ended in
            7) seven=$((seven + 1)) ;;
            5 | 6) shelf=$((shelf + 1)) ;;
            *) same=$((same + 1)) ;;
            esac
        fi
        number=$((number + 1))
    done
    if [ "$status" -ne "$want" ] || [ "$number" -eq 1 ]; then
        wrong=$((wrong + 1))
        echo "refused_memory: $command: status $status without a refusal, $((number - 1)) allocations" >&2
    fi
    all=$((all + number - 1)) bad=$((bad + wrong))
    row "$command" "$((number - 1))" "$seven" "$early" "$same" "$shelf" "$wrong"
}

all=0 bad=0
row command allocations "7, out of memory" "7, no line" "as without" "5 or 6, the shelf" other
row --- --- --- --- --- --- ---
refuse_each 'none, a DNF' '--dnf pairs --out-sdd out --out-vtree shape'
refuse_each 'none, a vtree file' '--dnf pairs --vtree tree --out-sdd out'
refuse_each 'none, a generated CNF' '--generate 12:0 --out-sdd out'
refuse_each 'none, a bad CNF' '--cnf bad --out-sdd out'
refuse_each 'none, with `--minimise`' '--dnf pairs --minimise 3 --out-sdd out --out-vtree shape'
refuse_each 'none, with `--every`' '--dnf pairs --every 1 --out-sdd out'
refuse_each 'none, bad words' '--cnf bad --colour x'
refuse_each 'none, in parts' '--dnf pairs --parts 2 --out-sdd out'
refuse_each 'none, in parts, by two workers' '--dnf pairs --parts 2 --workers 2 --out-sdd out'
refuse_each 'none, with `--portfolio`' '--dnf pairs --portfolio --out-sdd out --out-vtree shape'
refuse_each 'none, with `--portfolio`, by three workers' \
    '--dnf pairs --portfolio --workers 3 --out-sdd out --out-vtree shape'
refuse_each 'none, a circuit' '--aag adder --out-sdd out'
refuse_each 'none, a check' '--check part --vtree two'
refuse_each 'none, a check of a broken file' '--check broken --vtree two'
refuse_each '`output`' '--aag adder --script s' 'output a 0\noutput b 1\n'
refuse_each '`input`' '--dnf pairs --script s' 'input f\n'
refuse_each '`load`' '--cnf none --script s' 'load g part\n'
refuse_each '`lit`' '--cnf none --script s' 'lit a 1\n'
refuse_each '`true`, `false`' '--cnf none --script s' 'true t\nfalse f\n'
for operation in and or xor; do
    refuse_each "\`$operation\`" '--cnf none --script s' "lit a 1\\nlit b 3\\n$operation c a b\\n"
done
refuse_each '`not`' '--dnf pairs --script s' 'input f\nnot g f\n'
refuse_each '`given`' '--dnf terms --script s' 'input f\ngiven g f -1\n'
refuse_each '`forget`' '--dnf terms --script s' 'input f\nforget h f 1\n'
refuse_each '`drop`' '--dnf terms --script s' 'input f\ndrop f\ninput f\n'
refuse_each '`swap`' '--dnf terms --script s' 'input f\nswap 3\n'
refuse_each '`rotl`' '--dnf pairs --start right --script s' 'input f\nrotl 1\n'
refuse_each '`rotr`' '--dnf pairs --start left --script s' 'input f\nrotr 5\n'
refuse_each '`minimise`' '--dnf pairs --script s' 'input f\nminimise 3\n'
refuse_each '`limit`' '--dnf terms --script s' 'input f\nlimit 8\n'
refuse_each '`same`' '--dnf terms --script s' 'input f\ninput g\nsame f g\n'
refuse_each '`size`' '--dnf terms --script s' 'input f\nsize f\nsize f\n'
refuse_each '`value`' '--dnf terms --script s' 'input f\nvalue f 1100\nvalue f 1010\n'
refuse_each '`write`' '--dnf terms --script s' 'input f\nwrite f out\nwrite f other\n'
refuse_each '`vtree`' '--dnf terms --script s' 'vtree shape\n'
refuse_each '`given`, `forget` and what prints' '--dnf terms --script s' \
    'input f\ngiven g f -1\nforget h f 1\nsize g\nsize h\nvalue f 1100\nvalue f 1010\nwrite g out\n'
echo
echo "$all refusals, $bad of them ended in another way."
[ "$bad" -eq 0 ]
