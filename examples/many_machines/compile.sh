#!/bin/sh
# Compiles a CNF in parts, as many at a time as there are processors, joins the parts' diagrams, and compares the joined
# file with that of one run:
#
#     compile.sh PROGRAM FORMULA PARTS [words for the vtree, as --start right]
#
# Wants GNU parallel. Its own options come by PARALLEL: PARALLEL="--sshlogin one,two" takes other machines, which need
# the program and the folder at the same paths (a shared disk). Each line of the formula has to be a whole clause.
set -e
program=$1 formula=$2 parts=$3
shift 3
folder=${FOLDER:-$(mktemp -d)}

# The clauses in consecutive pieces, each a formula of its own over all variables; and one without clauses.
awk -v parts="$parts" -v folder="$folder" '
    $1 == "p" { variables = $3; clauses = $4; next }
    $1 == "c" || NF == 0 { next }
    { part = int(seen++ * parts / clauses); count[part]++; text[part] = text[part] $0 "\n" }
    END {
        for (part = 0; part < parts; part++)
            printf "p cnf %d %d\n%s", variables, count[part], text[part] > (folder "/" part ".cnf")
        printf "p cnf %d 0\n", variables > (folder "/none.cnf")
    }' "$formula"

seq 0 $((parts - 1)) | parallel "$program" --cnf "$folder/{}.cnf" "$@" --out-sdd "$folder/{}.sdd" ">/dev/null"

# A script that loads the parts one after another and joins each to those before.
{
    echo "load joined0 $folder/0.sdd"
    for part in $(seq 1 $((parts - 1))); do
        echo "load part $folder/$part.sdd"
        echo "and joined$part joined$((part - 1)) part"
        printf 'drop joined%d\ndrop part\n' $((part - 1))
    done
    echo "write joined$((parts - 1)) $folder/joined.sdd"
} >"$folder/join.script"
"$program" --cnf "$folder/none.cnf" "$@" --script "$folder/join.script"

"$program" --cnf "$formula" "$@" --out-sdd "$folder/one.sdd" >/dev/null
cmp "$folder/joined.sdd" "$folder/one.sdd" && echo "the joined file is that of one run"
