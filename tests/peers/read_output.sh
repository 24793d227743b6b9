#!/usr/bin/env bash
# Lets stock tools read a multiplex that remux wrote as a strip.
#
#     read_output.sh CONFIG OUT.ts PARENT0.ts [PARENT1.ts ..]
#
# tshark must find in OUT the services of CONFIG, their PMTs and elementary streams, no PID
# that CONFIG does not have, and no fault of CRC or continuity unless the parents have some.
# tsinfo must find the same services. For streams of some megabytes.
# Debian: apt-get install tshark tstools

set -euo pipefail

if [ $# -lt 3 ]; then
    echo "usage: read_output.sh CONFIG OUT.ts PARENT0.ts [PARENT1.ts ..]" >&2
    exit 1
fi
config=$1
out=$2
shift 2

for tool in tshark tsinfo; do
    if ! command -v "$tool" > /dev/null; then
        echo "read_output.sh: $tool is not installed (apt-get install tshark tstools)" >&2
        exit 1
    fi
done

status=0

# expect WHAT WANTED FOUND
expect() {
    if [ "$2" = "$3" ]; then
        echo "$1: as expected: $(tr '\n' ' ' <<< "$3")"
    else
        printf '%s: wanted:\n%s\nfound:\n%s\n' "$1" "$2" "$3"
        status=1
    fi
}

# fields FILE FILTER FIELD..: the values in the packets that pass the filter.
fields() {
    local wanted=()
    for field in "${@:3}"; do
        wanted+=(-e "$field")
    done
    tshark -r "$1" -o mpeg_sect.verify_crc:TRUE -Y "$2" -T fields -E separator=' ' "${wanted[@]}" \
        2> /dev/null
}

# Hexadecimal numbers, parted by commas, spaces or lines, as decimal ones in lines.
decimal() {
    local number
    for number in $(tr ',' ' '); do
        echo $((number))
    done
}

faults() {
    fields "$1" 'mp2t.cc.drop || mpeg_sect.crc.invalid || _ws.malformed' frame.number | wc -l
}

# map KIND FIELD: a field of the map rows of a kind, in row order.
map() {
    awk -v kind="$1" -v wanted="$2" '$4 == kind { print $wanted }' "$config"
}

expect "services in the PAT" "$(map pmt 5)" \
    "$(fields "$out" mpeg_pat mpeg_pat.prog_num | sort -u | decimal)"
expect "PIDs of the PMTs in the PAT" "$(map pmt 3)" \
    "$(fields "$out" mpeg_pat mpeg_pat.prog_map_pid | sort -u | decimal)"
expect "services in the PMTs" "$(map pmt 5 | sort -n)" \
    "$(fields "$out" mpeg_pmt mpeg_pmt.pg_num | sort -u | decimal | sort -n)"
expect "elementary PIDs in the PMTs" "$(map pass 3 | sort -n)" \
    "$(fields "$out" mpeg_pmt mpeg_pmt.stream.elementary_pid | sort -u | decimal | sort -nu)"
expect "PIDs in the multiplex" "$({ echo 0; map pmt 3; map pass 3; echo 8191; } | sort -n)" \
    "$(fields "$out" mp2t mp2t.pid | sort -u | decimal | sort -n)"
expect "services that tsinfo finds" "$(map pmt 5)" \
    "$(tsinfo "$out" | awk '$1 == "Program" && $3 == "->" { print $2 }')"

allowed=0
for parent in "$@"; do
    allowed=$((allowed + $(faults "$parent")))
done
found=$(faults "$out")
echo "packets $(($(wc -c < "$out") / 188)), faults $found, in the parents $allowed"
if [ "$found" -gt "$allowed" ]; then
    status=1
fi
exit $status
