#!/bin/sh
# Each request that docs/formats/HTTP.md has, by curl, to a serving program: what is answered stands in requests.out,
# but for the date and the moments of admission.
#
#   examples/requests.sh PROGRAM
set -eu
program=$(realpath "$1")
port=$(python3 -c 'import socket; it = socket.socket(); it.bind(("127.0.0.1", 0)); print(it.getsockname()[1])')
at=http://127.0.0.1:$port
folder=$(mktemp -d)
trap 'rm -rf "$folder"' EXIT
cd "$folder"

"$program" init records.vault
"$program" dept records.vault records --as registrar >/dev/null
"$program" caller records.vault ann put get list delete delete-version retain hold config --dept records --as registrar >/dev/null
"$program" caller records.vault gov delete-version retain bypass --dept records --as registrar >/dev/null
"$program" bucket records.vault docs records --as registrar >/dev/null
printf hello >a.txt
long_key=$(head -c 1025 /dev/zero | tr '\0' k)
timeout 60 "$program" serve records.vault "$port" --count 61 &
server=$!
patience="--retry 20 --retry-connrefused --retry-delay 1" # until the server is up

# WORDS..: a request by ann, and its answer without the line of the date.
ask() {
    ask_as ann "$@"
}

# CALLER WORDS..
ask_as() {
    caller=$1
    shift
    echo "# $caller: $(echo "$*" | sed "s#$at##; s#$long_key#KEY#")"
    curl -s -i $patience -H "x-vault-caller: $caller" "$@" |
        tr -d '\r' | sed '/^date: /d; s/"admitted":"[^"]*"/"admitted":"T"/g'
    echo
    patience=
}

# A version
ask -X PUT --data-binary @a.txt "$at/docs/2024/a"
ask -X PUT --data-binary @a.txt -H 'expect: 100-continue' "$at/docs/2024/a"
ask -X PUT --data-binary @a.txt -H 'x-amz-object-lock-mode: GOVERNANCE' -H 'x-amz-object-lock-retain-until-date: 2099-01-01T00:00:00Z' -H 'x-amz-object-lock-legal-hold: OFF' "$at/docs/2024/b"
ask -X PUT -d '' "$at/docs/a%20key/%C3%A9"
ask "$at/docs/2024/b"
ask --head "$at/docs/2024/b"
ask "$at/docs/2024/a?versionId=1"
ask --head "$at/docs/2024/a?versionId=1"
ask -X DELETE "$at/docs/2024/a"
ask "$at/docs/2024/a"
ask --head "$at/docs/2024/a"
ask "$at/docs/2024/a?versionId=5"
ask -X DELETE "$at/docs/2024/a?versionId=5"
ask "$at/docs/2024/a"
ask -X DELETE "$at/docs/2024/a?versionId=1"
ask -X DELETE "$at/docs/2024/a?versionId=1"

# Its lock
ask -X PUT -d '{"mode":"GOVERNANCE","until":"2099-01-02T00:00:00Z"}' "$at/docs/2024/b?retention"
ask "$at/docs/2024/b?retention"
ask -X PUT -d '{"mode":"GOVERNANCE","until":"2098-01-01T00:00:00Z"}' "$at/docs/2024/b?retention&versionId=3"
ask_as gov -X PUT -d '{"mode":"GOVERNANCE","until":"2098-01-01T00:00:00Z"}' -H 'x-amz-bypass-governance-retention: true' "$at/docs/2024/b?retention&versionId=3"
ask "$at/docs/2024/b?retention&versionId=3"
ask -X PUT -d '{"hold":"ON"}' "$at/docs/2024/b?legal-hold"
ask "$at/docs/2024/b?legal-hold"
ask_as gov -X DELETE -H 'x-amz-bypass-governance-retention: true' "$at/docs/2024/b?versionId=3"
ask -X PUT -d '{"hold":"OFF"}' "$at/docs/2024/b?legal-hold&versionId=3"
ask "$at/docs/2024/b?legal-hold&versionId=3"
ask -X DELETE "$at/docs/2024/b?versionId=3"
ask_as gov -X DELETE -H 'x-amz-bypass-governance-retention: TRUE' "$at/docs/2024/b?versionId=3"

# A bucket
ask -X PUT --data-binary @a.txt "$at/docs/2024/a"
ask "$at/docs?versions"
ask "$at/docs/?versions&prefix=2024/&max-keys=1"
ask "$at/docs?versions&key-marker=2024/a&version-id-marker=6&x-id=ListVersions"
ask "$at/docs?object-lock"
ask -X PUT -d '{"mode":"COMPLIANCE","years":1}' "$at/docs?object-lock"
ask "$at/docs?object-lock"
ask -X PUT -d '{}' "$at/docs?object-lock"
ask "$at/docs?lifecycle"
ask -X PUT -d '{"rules":[{"ID":"r1","Status":"Enabled","Expiration":{"Days":3}}]}' "$at/docs?lifecycle"
ask "$at/docs?lifecycle"
ask -X DELETE "$at/docs?lifecycle"

# What is refused
ask_as eve "$at/docs/2024/a"
ask_as gov "$at/docs/2024/a"
ask "$at/more/2024/a"
ask "$at/Docs/2024/a"
ask "$at/"
ask "$at/docs"
ask -X POST -d x "$at/docs/2024/a"
ask "$at/docs/$long_key"
ask "$at/docs/%00"
ask "$at/docs/2024/a?versionId=01"
ask "$at/docs/2024/a?acl"
ask "$at/docs/2024/a?retention&legal-hold"
ask -r 0-1 "$at/docs/2024/a"
ask -X PUT "$at/docs/2024/a"
ask -X PUT -H 'transfer-encoding: chunked' --data-binary @a.txt "$at/docs/2024/a"
ask -X PUT -H 'x-amz-object-lock-mode: GOVERNANCE' --data-binary @a.txt "$at/docs/2024/a"
ask -X PUT -d '{"mode":"GOVERNANCE"}' "$at/docs/2024/a?retention"
ask -X PUT -d '{"mode":"GOVERNANCE","until":"2001-01-01T00:00:00Z"}' "$at/docs/2024/a?retention"
ask -X PUT -d '{"hold":"ON"' "$at/docs/2024/a?legal-hold"
ask -X PUT -d '{"rules":[]}' "$at/docs?lifecycle"
ask -X DELETE "$at/docs?versions"
wait "$server"
"$program" verify records.vault
