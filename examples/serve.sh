#!/bin/sh
# The desk over HTTP, for real: examples/serve.sh [PROGRAM [PORT]]. It publishes two editions in a new file, serves seven
# connections, asks by curl, and ends. Needs curl.
set -eu
program=$(realpath "${1:-build/fares}")
port=${2:-8080}
folder=$(mktemp -d)
trap 'rm -rf "$folder"' EXIT
cd "$folder"

# The tariff of an edition, by its number, its effective day and the fare from London to Rome.
tariff() {
    printf 'HEAD,1,%s,%s\nCUR,GB,GBP,0.750000,0,1,U\nCUR,IT,EUR,0.900000,2,1,N\n' "$1" "$2"
    printf 'CITY,LON,GB,2\nCITY,ROM,IT,2\nFARE,LON,ROM,EH,YY,Y,OW,,%s\nEND\n' "$3"
}

# A trip from London to Rome, by the day on which it is sold.
trip() {
    printf '{"sale":"%s","from":"LON","sectors":[{"to":"ROM","carrier":"Q1","day":"2025-04-10","cabin":"Y"}]}' "$1"
}

# Shows a call of curl, and its answer; tries again until the port is open.
ask() {
    echo "$ curl $*"
    curl -sS --retry 10 --retry-connrefused --retry-delay 1 "$@"
}

tariff 1 2025-01-01 400.00 | "$program" publish --store editions
tariff 2 2025-02-01 410.00 | "$program" publish --store editions
"$program" serve --store editions --port "$port" --count 7 > summary &
tariff 3 2025-03-01 420.00 > march.txt
trip 2025-01-15 > january.json
trip 2025-03-15 > march.json
printf '{"line":"LON Q1 ROM 420.00 YYYOW/1 NUC420.00END ROE0.750000","trip":%s}' "$(cat march.json)" > audit.json
ask "localhost:$port/editions"
ask -d @january.json "localhost:$port/quote"
ask --data-binary @march.txt "localhost:$port/editions"
ask -d @march.json "localhost:$port/quote"
ask -d @march.json "localhost:$port/best/3"
ask -d @audit.json "localhost:$port/audit"
ask "localhost:$port/editions/9"
wait
cat summary
