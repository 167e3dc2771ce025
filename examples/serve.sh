#!/usr/bin/env bash
# Creates a register in a file, serves it on a local port, and plays the whole scenario with curl. Prints each reply on a line, and finally
# the title sheet of the garden. The server exits after its last connection; then the file is checked and served again, and returns the same
# sheet.
#     examples/serve.sh [FILE [PORT]]      (town.land 8080)
set -u
top=$(cd "$(dirname "$0")/.." && pwd) || exit 1
file=${1:-town.land}
port=${2:-8080}

# Prints the reply to a request. `serve` does not print when it listens, so curl retries until it does.
#   request PARTY ROLE PATH [BODY]
request() {
    curl --silent --retry-connrefused --retry 5 --header "Register-Party: $1" --header "Register-Role: $2" \
        ${4:+--data-binary "$4"} "http://127.0.0.1:$port$3" || echo "no reply: curl ends with status $?" >&2
    echo
}

# Sends an act of the state administrator.
#   administrator ACT BODY
administrator() { request 1 stateAdministrator "/acts/$1" "$2"; }

"$top/land" new --file "$file" || exit

# The scenario has 18 acts and a read, each on its own connection, and the server exits after the last one.
"$top/land" serve --file "$file" --port "$port" --connections 19 &
service=$!
administrator enrol '{"kind":"naturalPerson","name":"Anna"}'
administrator enrol '{"kind":"naturalPerson","name":"Ben"}'
administrator enrol '{"kind":"nonNaturalPerson","name":"Bank, \"North\""}'
administrator grant '{"party":4,"role":"bank"}'
administrator enrol '{"kind":"naturalPerson","name":"Nora"}'
administrator grant '{"party":5,"role":"notary"}'
administrator enrol '{"kind":"naturalPerson","name":"Sam"}'
administrator grant '{"party":6,"role":"certifiedSurveyor"}'
administrator group '{"name":"Anna and Ben","members":[{"party":2,"share":"1/3"},{"party":3,"share":"2/3"}]}'
administrator register '{"name":"Garden","checked":true,"document":"Deed 1","parcels":[{"label":"12","outline":"POLYGON ((0 0, 10000 0, 10000 10000, 0 10000, 0 0))"}],"rights":[{"party":2,"type":"ownership","share":"1/4"},{"party":7,"type":"ownership","share":"3/4"},{"party":6,"type":"lease","share":"1/1"}]}'
request 4 bank /acts/mortgage '{"reference":"M1","document":"Loan 1","unit":9,"creditor":4,"amount":2500000,"currency":"EUR"}'
administrator approve '{"mutation":15}'
request 5 notary /acts/transfer '{"reference":"T1","document":"Deed 2","unit":9,"right":11,"receiver":7,"share":"1/4"}'
administrator approve '{"mutation":18}'
request 5 notary /acts/transfer '{"reference":"T2","document":"Deed 3","unit":9,"right":12,"receiver":3,"share":"1/1"}'
administrator approve '{"mutation":20}'
request 6 certifiedSurveyor /acts/subdivision '{"reference":"S1","document":"Plan 1","unit":9,"parcel":10,"first":{"label":"12a","outline":"POLYGON ((0 0, 5000 0, 5000 10000, 0 10000, 0 0))"},"rest":[{"label":"12b","outline":"POLYGON ((5000 0, 10000 0, 10000 10000, 5000 10000, 5000 0))","unit":"Orchard"}]}'
administrator approve '{"mutation":23}'
request 3 citizen /units/9/sheet
wait "$service" || exit

"$top/land" check --file "$file" || exit
"$top/land" serve --file "$file" --port "$port" --connections 1 &
service=$!
request 3 citizen /units/9/sheet
wait "$service" || exit
"$top/land" check --file "$file"
