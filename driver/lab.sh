#!/bin/sh
# Two drivers on a link between two network namespaces: learning, Compact Format and flush with real frames; what a driver keeps when it
# is ended or its link goes; lost frames. `make lab` builds the driver first. Needs root and `ip` (Debian: apt-get install iproute2);
# status 77 where the lab cannot be built, 1 where it fails. Makes and removes its own two namespaces only, and writes below target/lab
# only.
# Settings are several words.
# shellcheck disable=SC2086
set -u
cd "$(dirname "$0")/.." || exit 1
port=$PWD/target/driver/shinglebar-port
data=$PWD/driver/data
made=$PWD/target/lab
left=shinglebar-lab-$$-left
right=shinglebar-lab-$$-right
left_settings="--port 02-00-00-00-00-A1 --inner 02-00-00-00-00-AA --nickname 0102"
right_settings="--port 02-00-00-00-00-B2 --inner 02-00-00-00-00-BB --nickname 1234"
namespaces=
drivers=
failures=0

clean() {
    trap '' INT TERM HUP
    for process in $drivers; do kill -TERM "$process" 2>/dev/null; done
    wait
    for namespace in $namespaces; do ip netns del "$namespace"; done
}
trap clean EXIT
trap 'echo "lab: interrupted"; exit 1' INT TERM HUP

cannot() {
    echo "lab: cannot be built here: $*" >&2
    exit 77
}

build() {
    [ "$(id -u)" -eq 0 ] || cannot "root is needed"
    command -v ip >/dev/null || cannot "there is no \`ip\` (Debian: apt-get install iproute2)"
    for namespace in "$left" "$right"; do
        said=$(ip netns add "$namespace" 2>&1) || cannot "network namespaces are not permitted: $said"
        namespaces="$namespaces $namespace"
        # no neighbour discovery: the link carries our frames only
        # shellcheck disable=SC2016
        ip netns exec "$namespace" sh -c 'for f in /proc/sys/net/ipv6/conf/*/disable_ipv6; do echo 1 >"$f"; done' 2>/dev/null
    done
    connect
}

connect() {
    said=$(ip link add left0 netns "$left" type veth peer name right0 netns "$right" 2>&1) \
        || cannot "a veth pair is not permitted: $said"
    ip -n "$left" link set left0 up || cannot "the link does not come up"
    ip -n "$right" link set right0 up || cannot "the link does not come up"
}

# listen SIDE LOG OPTIONS..: starts a driver with Compact on that learns into the table SIDE, and waits until it listens
listen() {
    side=$1 log=$made/$2.log
    shift 2
    eval "namespace=\$$side settings=\$${side}_settings"
    # nohup around the lab must not keep SIGHUP from the driver
    # shellcheck disable=SC2154
    ip netns exec "$namespace" env --default-signal=HUP "$port" live --interface "${side}0" --table "$made/$side" --slots 8 --for 20 \
        --compact on $settings "$@" >"$log" 2>&1 &
    started=$!
    drivers="$drivers $started"
    await "$log" "listening on"
}

# await LOG WORDS: until the log has the words, at most ten seconds
await() {
    tries=100
    until grep -q "$2" "$1" 2>/dev/null; do
        tries=$((tries - 1))
        [ "$tries" -gt 0 ] || { echo "lab: nothing of \`$2\` in $1:"; cat "$1"; exit 1; }
        sleep 0.1
    done
}

# ended PROCESS [STATUS]: waits for a driver; it must end well, or with the status
ended() {
    wait "$1"
    status=$?
    [ "$status" -eq "${2:-0}" ] || { echo "FAIL: a driver ended with status $status"; failures=$((failures + 1)); }
    drivers=$(echo "$drivers" | sed "s/ $1\$//; s/ $1 / /")
}

# transmit SIDE CAPTURE on|off [OPTION]: sends a capture of driver/data, or of a path, to a side, from the other one
transmit() {
    case $1 in
    left) set -- "$right" right0 "$left_settings" "$@" ;;
    right) set -- "$left" left0 "$right_settings" "$@" ;;
    esac
    capture=$5
    [ -f "$capture" ] || capture=$data/$5.pcap
    ip netns exec "$1" "$port" send "$capture" --interface "$2" --compact "$6" $3 ${7:+"$7"}
}

# the records of a table without the seconds, which go by the clock
records() {
    "$port" check --table "$made/$1" | sed -n 's/^  \(.*\), [0-9]* s$/\1/p'
}

# fresh: no tables yet
fresh() {
    rm -f "$made"/left "$made"/left.* "$made"/right "$made"/right.*
}

# await_records SIDE WANTED: until the table file has the records, at most ten seconds
await_records() {
    tries=100
    until [ "$(records "$1" 2>/dev/null)" = "$2" ] || [ "$tries" -eq 0 ]; do
        tries=$((tries - 1))
        sleep 0.1
    done
}

# expect SENTENCE WANTED GOT
expect() {
    if [ "$2" = "$3" ]; then
        echo "ok: $1"
    else
        echo "FAIL: $1"
        echo "wanted:"
        echo "$2"
        echo "got:"
        echo "$3"
        failures=$((failures + 1))
    fi
}

# count LOG PATTERN
count() {
    grep -c "$2" "$made/$1.log"
}

# four FIRST NICKNAME: the records of the four stations of a side's capture
four() {
    echo "slot 0: learned VLAN 10 02-00-00-00-00-${1}0 behind $2, confidence 32
slot 1: learned VLAN 20 02-00-00-00-00-${1}1 behind $2, confidence 32
slot 2: learned FGL 70000 02-00-00-00-00-${1}2 behind $2, confidence 32
slot 3: learned VLAN 10 02-00-00-00-00-${1}3 behind $2, confidence 32"
}

build
rm -rf "$made"
mkdir -p "$made" || exit 1

for compact in off on; do
    echo "--- four stations each way, Compact $compact"
    fresh
    listen left "left_$compact" --frames 4
    at_left=$started
    listen right "right_$compact"
    at_right=$started
    transmit left lab_to_left $compact
    transmit right lab_to_right $compact
    ended "$at_left"
    await "$made/right_$compact.log" "^frame 4:"
    # the driver at the right has no number of frames: a signal ends it in order
    kill -INT "$at_right"
    ended "$at_right"
    cat "$made/left_$compact.log"
    expect "left learned the four stations" "$(four 1 1234)" "$(records left)"
    expect "right learned the four stations" "$(four 2 0102)" "$(records right)"
    wanted=0
    [ $compact = off ] || wanted=4
    expect "$wanted frames came to each side in Compact Format" "$wanted $wanted" \
        "$(count "left_$compact" '^frame .: [^ ]* Compact,') $(count "right_$compact" '^frame .: [^ ]* Compact,')"
done

echo "--- a flush cut short"
listen left cut --frames 1
transmit left lab_cut off
ended "$started"
grep '^frame' "$made/cut.log"
expect "it is refused" 1 "$(count cut '| refused 15: flush payload corrupt: byte 2 of the payload: K-VLBs 1 means 4 bytes of VLAN blocks: 3 are left | table unchanged')"
expect "left still has the four stations" "$(four 1 1234)" "$(records left)"

echo "--- the flush whole, in Compact Format"
listen left flush --frames 1
transmit left lab_flush on
ended "$started"
grep '^frame' "$made/flush.log"
expect "it came in Compact Format and cleared 2 records" 1 "$(count flush '^frame 1: [^ ]* Compact,.*| flushed, 2 cleared; nicknames: 1234 (the sender.s); labels: VLAN 10; MACs: all |')"
expect "left has the stations of other labels only" "$(four 1 1234 | sed -n 2,3p)" "$(records left)"
expect "right has its four stations as before" "$(four 2 0102)" "$(records right)"

echo "--- what was learned is kept"
fresh
listen left save --save 1
transmit left lab_to_left off --quiet
await_records left "$(four 1 1234)"
expect "the table is written while the driver runs" "$(four 1 1234)" "$(records left)"
said=$(ip netns exec "$left" "$port" live --interface left0 --table "$made/left" --for 1 $left_settings 2>&1)
expect "a second driver on the table is refused" "1 1" \
    "$? $(echo "$said" | grep -c "left is in use by process $started ")"
kill -KILL "$started"
ended "$started" 137
expect "after a kill the table is as it was saved" "$(four 1 1234)" "$(records left)"
expect "and what the driver held lies there" "$made/left.shinglebar-lock" "$(ls "$made"/left.shinglebar-*)"

fresh
listen left asked --save 1000
kill -USR1 "$started"
await "$made/asked.log" "table saved"
expect "SIGUSR1 writes a table in which nothing is learned yet" "120" "$(wc -c <"$made/left")"
transmit left lab_to_left off --quiet
await "$made/asked.log" "^frame 4:"
expect "before it is asked again nothing is written" "" "$(records left)"
kill -USR1 "$started"
await_records left "$(four 1 1234)"
expect "SIGUSR1 writes the table" "$(four 1 1234)" "$(records left)"
transmit left lab_flush off --quiet
await "$made/asked.log" "^frame 5:"
kill -HUP "$started"
ended "$started"
expect "SIGHUP ends in order" "$(four 1 1234 | sed -n 2,3p)" "$(records left)"
expect "and nothing but the table is left" "left left.aged" "$(cd "$made" && echo left left.*)"

fresh
# the reader goes after five lines, four of them of frames; what comes then cannot be printed
{
    ip netns exec "$left" "$port" live --interface left0 --table "$made/left" --slots 8 --for 20 $left_settings 2>"$made/pipe.err"
    echo $? >"$made/pipe.status"
} | sed -u 5q >"$made/pipe.log" &
reader=$!
await "$made/pipe.log" "listening on"
transmit left lab_to_left off --quiet
await "$made/pipe.log" "^frame 4:"
transmit left lab_to_left off --quiet
wait "$reader"
tries=100
until [ -s "$made/pipe.status" ] || [ "$tries" -eq 0 ]; do tries=$((tries - 1)); sleep 0.1; done
expect "a closed pipe ends the driver with status 1" "1 1" \
    "$(cat "$made/pipe.status") $(grep -c 'standard output cannot be written: Broken pipe' "$made/pipe.err")"
expect "and what was learned is kept" "$(four 1 1234)" "$(records left)"
ip netns exec "$left" "$port" live --interface left0 --table "$made/left" --for 20 $left_settings >/dev/full 2>"$made/full.err"
expect "a full disk under standard output does the same" "1 1" \
    "$? $(grep -c 'standard output cannot be written: No space left' "$made/full.err")"
expect "and the table stays" "$(four 1 1234)" "$(records left)"

echo "--- the night"
# the first frame of a capture, as if it had come a hundred seconds ago; its length and its time, lowest byte first
now=$(date +%s)
le() {
    for shift in 0 8 16 24; do
        # shellcheck disable=SC2059
        printf "\\$(printf %03o $(($1 >> shift & 255)))"
    done
}
{
    head -c 24 "$data/lab_to_left.pcap"
    le $((now - 100))
    tail -c +29 "$data/lab_to_left.pcap" | head -c 96
} >"$made/night.pcap"
fresh
"$port" receive "$made/night.pcap" --table "$made/left" --slots 8 --quiet $left_settings >"$made/night.log"
listen left morning
kill -INT "$started"
ended "$started"
seconds=$("$port" check --table "$made/left" | sed -n 's/^  slot 0: .*, \([0-9]*\) s$/\1/p')
expect "a record of a hundred seconds ago has about 200 left" yes \
    "$([ "${seconds:-0}" -ge 180 ] && [ "$seconds" -le 200 ] && echo yes || echo "$seconds")"
fresh
"$port" receive "$data/lab_to_left.pcap" --table "$made/left" --slots 8 --quiet $left_settings >"$made/year.log"
listen left year
kill -INT "$started"
ended "$started"
grep '^aged' "$made/year.log"
expect "records of last year are gone, and a line says so" 1 "$(count year '^aged: .* | 4 became free | slot 0: VLAN 10 .* -> free; ')"
expect "and the table is empty" "" "$(records left)"

echo "--- the link goes and comes back"
fresh
listen left link
transmit left lab_to_left off --quiet
await "$made/link.log" "^frame 4:"
ip -n "$left" link set left0 down
await "$made/link.log" "interface left0: .* down"
ip -n "$left" link set left0 up
await "$made/link.log" "interface left0: .* up again"
transmit left lab_to_left off --quiet
await "$made/link.log" "^frame 8:"
ip -n "$left" link del left0
sleep 0.5
connect
tries=100
until [ "$(count link 'up again')" -eq 2 ] || [ "$tries" -eq 0 ]; do tries=$((tries - 1)); sleep 0.1; done
transmit left lab_to_left off --quiet
await "$made/link.log" "^frame 12:"
kill -INT "$started"
ended "$started"
grep '^interface' "$made/link.log"
expect "down twice, and up twice" "2 2" "$(count link ' down$') $(count link ' up again$')"
expect "frames before, between and after counted" 1 "$(count link '^12 frames: 12 delivered (4 learned, 8 refreshed')"
ip -n "$left" link set left0 down
listen left late
await "$made/late.log" "interface left0: .* down"
ip -n "$left" link set left0 up
await "$made/late.log" "interface left0: .* up again"
transmit left lab_to_left off --quiet
await "$made/late.log" "^frame 4:"
kill -INT "$started"
ended "$started"
expect "a driver that starts before its link waits for it" 1 "$(count late '^4 frames: ')"
said=$(ip netns exec "$left" "$port" live --interface lo --table "$made/left" --for 1 $left_settings 2>&1)
expect "an interface that is not Ethernet is refused" \
    "1 shinglebar-port: interface lo is not Ethernet: its hardware type is 772 (loopback)" "$? $said"

echo "--- more frames than there is room for"
tail -c +25 "$data/lab_to_left.pcap" >"$made/flood.body"
for _ in 1 2 3 4 5 6 7 8 9 10 11 12 13 14 15 16 17; do
    cat "$made/flood.body" "$made/flood.body" >"$made/flood.next"
    mv "$made/flood.next" "$made/flood.body"
done
{ head -c 24 "$data/lab_to_left.pcap"; cat "$made/flood.body"; } >"$made/flood.pcap"
fresh
listen left flood --quiet
kill -STOP "$started"
transmit left "$made/flood.pcap" off --quiet
kill -CONT "$started"
sleep 2
kill -INT "$started"
ended "$started" 3
grep 'lost' "$made/flood.log"
taken=$(sed -n 's/^\([0-9]*\) frames: .*, \([0-9]*\) lost$/\1/p' "$made/flood.log")
lost=$(sed -n 's/^\([0-9]*\) frames: .*, \([0-9]*\) lost$/\2/p' "$made/flood.log")
expect "lost frames are counted, and each frame is taken or lost" "524288 yes" \
    "$((taken + lost)) $([ "$lost" -gt 0 ] && echo yes)"
expect "what was learned is kept" "$(four 1 1234)" "$(records left)"

# rate NAME OPTION..: what a driver takes of all that can be sent; measured and not judged, since it says more of the machine
rate() {
    name=$1
    shift
    fresh
    listen left "$name" "$@"
    began=$(date +%s%N)
    transmit left "$made/flood.pcap" off --quiet >/dev/null
    spent=$((($(date +%s%N) - began) / 1000000))
    sleep 3
    kill -INT "$started"
    wait "$started"
    drivers=$(echo "$drivers" | sed "s/ $started\$//; s/ $started / /")
    totals=$(grep '^[0-9]* frames: ' "$made/$name.log")
    echo "$name: ${totals%%:*}, ${totals##*, }, sent in $spent ms"
}
rate quiet --quiet
rate lines
rm -f "$made"/flood.* "$made"/lines.log

if command -v script >/dev/null; then
    fresh
    line="ip netns exec $left $port live --interface left0 --table $made/left --slots 8 --for 3 --quiet $left_settings"
    script -qec "$line" /dev/null >"$made/terminal.log" </dev/null
    expect "on a terminal a line tells frames and losses" yes \
        "$(tr '\r' '\n' <"$made/terminal.log" | grep -q '^0 frames, 0 lost' && echo yes)"
fi

if [ "$failures" -eq 0 ]; then
    echo "lab: PASS"
else
    echo "lab: FAIL, $failures of the above"
    exit 1
fi
