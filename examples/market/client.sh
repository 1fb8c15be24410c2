#!/bin/bash
# Keeps `dictd once` as its child, and asks it line by line: client.sh DICTD DEFS, in the folder that the programs of the
# definitions file are started in.
set -eu
coproc DICTD { "$1" once "$2" 1; }
# Bash forgets these when its child ends.
replies=${DICTD[0]} requests=${DICTD[1]} child=$DICTD_PID

# The one line that answers these fields.
ask() {
    local IFS=$'\t' reply
    printf '%s\n' "$*" >&"$requests"
    read -r reply <&"$replies"
    printf '%s\n' "$reply"
}

ask dictGet geo.country name 40
ask dictGet tariff price eu 1 2030-01-01
ask dictHas net 203.0.113.1
ask quit
wait "$child"
