#!/bin/sh
# where.sh CRATE [FLAGS of rt check]: checks a crate and says where the time goes: the seconds until the proof of each
# function ended, since the one before; those of each stage of the check; and the memory that it took.
# What earlier checks have kept is not checked again, and has no line: in a copy whose crates/CRATE/out is new, or after an
# edit of what all stands on, all has.
set -eu
cd "$(dirname "$0")/../crates/$1"
shift
stages=$(mktemp)
trap 'rm -f "$stages"' EXIT

# a single process, so that one proof ends after the other
rt check --jobs 1 --progress --stage-times "$stages" "$@" 2>&1 | {
    last=$(date +%s%N)
    while IFS= read -r line; do
        now=$(date +%s%N)
        case $line in
            'checked '*)
                hundredths=$(((now - last) / 10000000))
                printf '%6d.%02d %s\n' $((hundredths / 100)) $((hundredths % 100)) "$line"
                last=$now
                ;;
            *'error: '* | *'error['* | *'not proved'* | logic=*) printf '%s\n' "$line" ;;
        esac
    done
}
awk '$1 == "stage" && $3 >= 0.25 { printf "%9.2f stage %s\n", $3, $2 }
    $1 == "peak" { printf "%9.2f GiB at most\n", $2 / 1048576 }' "$stages"
