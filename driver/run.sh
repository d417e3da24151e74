#!/bin/sh
# The main job on the captures of driver/data; writes below target/run only. `make run` builds the driver first.
set -eu
cd "$(dirname "$0")/.."
port=target/driver/shinglebar-port
data=driver/data
made=target/run
settings="--port 02-00-00-00-00-A1 --inner 02-00-00-00-00-AA --nickname 0102 --compact on"

# step WORDS..: shows a command of the driver and runs it
step() {
    echo
    echo "\$ shinglebar-port $*"
    "$port" "$@"
}

rm -rf "$made"
mkdir -p "$made"
# $settings is several words
# shellcheck disable=SC2086
{
    step receive $data/hall.pcap --table $made/table --slots 16 --out $made/native.pcap $settings
    step report --table $made/table
    step why $data/hall.pcap --table $made/fresh --slots 16 --mac 02-00-00-00-00-02 $settings
    step receive $data/refusals.pcap --table $made/table --quiet $settings
    step compact $data/to_compact.pcap --out $made/compact.pcap $settings
    step expand $made/compact.pcap --out $made/general.pcap --source 02-00-00-00-00-B2 $settings
    step lookup --table $made/table --vlan 20 --mac 02-00-00-00-00-05
    step set --table $made/table --vlan 30 --mac 02-00-00-00-00-06 --nickname 1236
    step age --table $made/table --by 200
    step check --table $made/table
}
echo
echo "made in $made: table, table.aged (the second it was aged to), native.pcap (the native frames delivered), compact.pcap, general.pcap"
