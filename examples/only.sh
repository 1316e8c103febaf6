#!/bin/sh
# A check for a build script: fails where a device may be touched by anybody but the owners that are
# listed, or by a compartment that shares with one of them.
#
#     capfw audit FIRMWARE.json > report.json && only.sh report.json DEVICE OWNER..
#
# Status 0: only these. Status 1: it prints each entry, and each edge of the sharing graph, that is too
# much. Status 2: no report, or no such device in it.
if [ "$1" = --help ]; then
    sed -n '2,/^[^#]/s/^# \{0,1\}//p' "$0"
    exit
fi
if [ $# -lt 2 ]; then
    echo "only.sh REPORT DEVICE OWNER.." >&2
    exit 2
fi
if [ ! -f "$1" ] || [ ! -r "$1" ]; then
    echo "$1: no file that can be read" >&2
    exit 2
fi
report=$1 device=$2
shift 2
jq -e --arg device "$device" '.devices | any(.name == $device)' "$report" > /dev/null 2>&1 || {
    echo "no device $device in $report" >&2
    exit 2
}
found=$(jq -r --arg device "$device" '
    . as $report
    | ($report.entries[]
        | select(.kind == "device" and .of == $device and (.owner | IN($ARGS.positional[]) | not))
        | "entry \(.number): \(.owner) may touch \($device)"),
      ($report.edges[]
        | [$report.compartments[.[]]]
        | select((map(IN($ARGS.positional[])) | any) and (map(IN($ARGS.positional[])) | all | not))
        | "edge: \(.[0]) shares with \(.[1])")
' --args "$@" < "$report") || exit 2
[ -z "$found" ] || {
    echo "$found"
    exit 1
}
