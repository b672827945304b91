#!/usr/bin/env bash
# An event service in flat memory: ten million bodies, of which one in 16 has a child that fails, are served right, and the peak memory is at most an
# eighth above that of one million. The program is that of bench/serve.sh.
set -euo pipefail
cd "$(dirname "${BASH_SOURCE[0]}")/../.."

. bench/loader.sh
. bench/unproved.sh
lay_out_loader serve fj_serve
optimise_loader

# peak_of COUNT: the peak memory in KiB. The program fails where an outcome is wrong.
peak_of() {
    /usr/bin/time -o "$loader.peak" -f %M timeout 600 "$program" 4 1 65536 1000 0 "$1" 0 16 > "$loader.log"
    cat "$loader.peak"
}

short=$(peak_of 1000000)
long=$(peak_of 10000000)
if ((long * 8 > short * 9)); then
    echo "10,000,000 bodies took $long KiB, 1,000,000 took $short" >&2
    exit 1
fi
echo "10,000,000 bodies were served right, in $long KiB; 1,000,000 in $short"
