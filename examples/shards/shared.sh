#!/bin/sh
# Sends a shared request to every shard, in one order to all of them, until each has it.
#
#     shared.sh roll 2024-03-01
#     shared.sh holiday 2024-07-04
#     shared.sh feerow 2024-01-02 3000 4100
#     shared.sh index 2024-04-01 550
#     shared.sh                               sends what shards lack
#     shared.sh again SHARD                   the same from the first request on, to a shard whose file was restored
#
# The folder of SHARDS (else /etc/billctl) holds `shards`, a line `NAME ADDRESS` a shard; `shared`, the shared requests in order;
# and `NAME.has`, how many of them a shard has. SOCKET is HAProxy's admin socket (else /run/haproxy/admin.sock): a shard
# that lacks some is shut there, and opened once it has all, so that no account is served a new day while another one is served the
# day before. Where the socket isn't there, nothing is shut. TRIES (else 30) says how often a shard is tried, a second apart.
#
# A request that a shard has already counts as done: a roll to its day, and what lies before a later roll that it has.
#
# Status: 0 each shard has all of them; 1 every shard that answered refused the request, and it is dropped; 2 the words aren't a
# shared request, or it can't follow those before it; 3 some shards lack some, which are listed; 4 a shard refuses what another
# one has, or another run is under way.
folder=${SHARDS:-/etc/billctl}
socket=${SOCKET:-/run/haproxy/admin.sock}
tries=${TRIES:-30}
list="$folder/shards"
requests="$folder/shared"
wait_for_answer=65

say() {
    printf 'shared.sh: %s\n' "$1" >&2
}

# The days from 1 BC to a day YYYY-MM-DD.
number_of() {
    year=${1%%-*} month=${1#*-} day=${1##*-}
    month=${month%-*}
    month=${month#0} day=${day#0}
    [ "$month" -gt 2 ] || { month=$((month + 12)) year=$((year - 1)); }
    echo $((365 * year + year / 4 - year / 100 + year / 400 + (153 * month - 457) / 5 + day))
}

# Whether the words are those of a shared request.
is_request() {
    printf '%s\n' "$*" | grep -Eqx '(roll|holiday) [0-9]{4}-[0-9]{2}-[0-9]{2}|feerow [0-9]{4}-[0-9]{2}-[0-9]{2} [0-9]+ [0-9]+|index [0-9]{4}-[0-9]{2}-[0-9]{2} [0-9]+'
}

# The JSON of a line.
body_of() {
    case $1 in
    feerow) printf '{"kind":"feerow","day":"%s","first":%s,"repeat":%s}' "$2" "$3" "$4" ;;
    index) printf '{"kind":"index","day":"%s","rate":%s}' "$2" "$3" ;;
    *) printf '{"kind":"%s","day":"%s"}' "$1" "$2" ;;
    esac
}

# Adds a request to the list, unless the last one of its kind and day is the same. It follows the last roll: by at most 366 days
# where it is a roll, since a shard without accounts takes more and others don't.
add() {
    today=$(awk '$1 == "roll" { today = $2 } END { print today }' "$requests")
    [ "$(awk -v kind="$1" -v day="$2" '$1 == kind && $2 == day { line = $0 } END { print line }' "$requests")" != "$*" ] || return 0
    if [ -n "$today" ]; then
        ahead=$(($(number_of "$2") - $(number_of "$today")))
        [ "$ahead" -gt 0 ] || { say "today is $today: $* comes too late" && exit 2; }
        [ "$1" != roll ] || [ "$ahead" -le 366 ] || { say "today is $today: $* goes more than 366 days on" && exit 2; }
    fi
    printf '%s\n' "$*" >>"$requests" && sync "$requests"
}

# Sets `count` to how many requests a shard has.
count() {
    count=0
    [ ! -s "$folder/$1.has" ] || read -r count <"$folder/$1.has"
}

# The shards that lack some.
lacking() {
    while read -r shard address; do
        count "$shard"
        [ "$count" -eq "$total" ] || echo "$shard"
    done <"$list"
}

# Commands to HAProxy, with `;` between them.
door() {
    [ ! -S "$socket" ] || printf '%s\n' "$1" | socat -t 10 - "UNIX-CONNECT:$socket"
}

# Whether nothing is under way in any shard that is shut.
is_idle() {
    door "show stat" | awk -F, '$2 == "ledger" && $18 ~ /^MAINT/ && $5 > 0 { busy = 1 } END { exit busy }'
}

# Shuts each shard that lacks some, and waits until nothing is under way there.
shut() {
    commands=
    for shard in $1; do
        commands="${commands}set server shard$shard/ledger state maint;"
    done
    [ -n "$commands" ] || return 0
    door "$commands" >/dev/null
    waited=0
    while ! is_idle && [ "$waited" -lt $((10 * wait_for_answer)) ]; do
        waited=$((waited + 1))
        sleep 0.1
    done
}

# Sends one request, and sets `came` to `has`, `lacks` or `refused ANSWER`. A refusal that tells the day of this roll, or of one
# behind it, says that the request is there.
send() {
    # shellcheck disable=SC2046
    body=$(body_of $(sed -n "$3p" "$requests"))
    answer=$(curl -s --max-time $wait_for_answer -H 'Content-Type: application/json' -d "$body" -w ' %{http_code}' "http://$2/posts")
    today=${answer##*\"no\":2[79],\"value\":\"}
    case $answer in
    *\ 200) came=has ;;
    *'"no":27,'*\ 409 | *'"no":29,'*\ 409)
        came="refused ${answer% *}"
        ! tail -n "+$3" "$requests" | grep -qx "roll ${today%%\"*}" || came=has
        ;;
    *\ 4*) came="refused ${answer% *}" ;;
    *) came=lacks ;;
    esac
}

# Sends a shard all that it lacks, in order, and opens it once it has all. What it came to stands in a file.
bring() {
    count "$1"
    came=has
    while [ "$count" -lt "$total" ]; do
        send "$1" "$2" $((count + 1))
        [ "$came" = has ] || break
        count=$((count + 1))
        echo "$count" >"$folder/$1.has"
    done
    [ "$came" != has ] || door "set server shard$1/ledger state ready" >/dev/null
    echo "$came" >"$room/$1"
}

# Brings each shard that hasn't come to `has` yet, all at once.
bring_all() {
    while read -r shard address; do
        came=
        [ ! -s "$room/$shard" ] || read -r came <"$room/$shard"
        [ "$came" = has ] || bring "$shard" "$address" &
    done <"$list"
    wait
}

# The shards that came to a word.
came_to() {
    (cd "$room" && grep -l "^$1" -- * 2>/dev/null)
}

# Whether no shard has the last request, and some refused it.
is_refused() {
    [ "$(lacking)" = "$(cut -d ' ' -f 1 "$list")" ] || return 1
    for shard in $(came_to refused); do
        count "$shard"
        [ "$((count + 1))" -ne "$total" ] || return 0
    done
    return 1
}

# Drops the last request, where it is refused.
drop_refused() {
    is_refused || return 0
    say "dropped: $(sed -n "${total}p" "$requests"): $(cat "$room/$(came_to refused | head -n 1)")"
    sed "${total}d" "$requests" >"$requests.next" && mv "$requests.next" "$requests"
    total=$((total - 1))
    rm -f "$room"/*
    bring_all
    exit 1
}

# Tells what each shard lacks, and ends.
report() {
    for shard in $(came_to lacks) $(came_to refused); do
        count "$shard"
        echo "shard $shard lacks $(sed -n "$((count + 1)),${total}p" "$requests" | tr '\n' ',' | sed 's/,$//; s/,/, /g'): $(cat "$room/$shard")"
    done
    [ -z "$(came_to refused)" ] || exit 4
    [ -z "$(came_to lacks)" ] || exit 3
}

main() {
    exec 9>>"$folder/lock" || exit 4
    flock -n 9 || { say "another run is under way in $folder" && exit 4; }
    touch "$requests"
    case $1 in
    '') ;;
    again) echo 0 >"$folder/$2.has" ;;
    *) add "$@" ;;
    esac
    total=$(wc -l <"$requests")
    shut "$(lacking)"
    bring_all
    drop_refused
    while [ -n "$(came_to lacks)" ] && [ "$tries" -gt 1 ]; do
        tries=$((tries - 1))
        sleep 1
        bring_all
    done
    report
}

if [ "$#" -gt 0 ] && ! { [ "$1" = again ] && grep -q "^$2 " "$list"; } && ! is_request "$@"; then
    sed -n '2,/^folder=/s/^# \{0,1\}//p' "$0" >&2
    exit 2
fi
room=$(mktemp -d) || exit 1
trap 'rm -rf "$room"' EXIT
main "$@"
