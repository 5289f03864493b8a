#!/usr/bin/env bash
# Writes and reads chains of 1,000, 10,000 and 100,000 wires, and one whose text has nearly 64 MiB, and
# prints MB/s and how each time compares with that of a tenth of the wires. Then it runs a 64-bit counter
# and a chain of 10,000 wires, and prints clocks per second. Where Icarus Verilog (`iverilog`) is
# installed, the chain is compiled and run there too, by the same clocks, and has to give the same output.
#
# It needs /usr/bin/time, and the program crates/verilog_bench, which it proves and builds where it isn't
# built yet.
set -eu
top=$(cd "$(dirname "${BASH_SOURCE[0]}")/.." && pwd)
crate=$top/crates/verilog_bench
ours=$crate/out/verilog_bench
folder=$(mktemp -d)
trap 'rm -rf "$folder"' EXIT

[ -x "$ours" ] || (cd "$crate" && rt run) >"$folder/build.log" 2>&1
[ -x "$ours" ] || { echo "verilog_bench was not built" >&2; tail "$folder/build.log" >&2; exit 1; }

# The seconds of user and system time of a command; what it prints stays in the file `said`.
seconds() {
    /usr/bin/time -f '%U %S' -o "$folder/time" "$@" >"$folder/said"
    awk '{ printf "%.3f", $1 + $2 }' "$folder/time"
}

megabytes() { awk -v bytes="$1" -v time="$2" 'BEGIN { if (time > 0) printf "%.0f", bytes / time / 1000000; else printf "-" }'; }
rate() { awk -v what="$1" -v time="$2" 'BEGIN { if (time > 0) printf "%.1f", what / time; else printf "-" }'; }

# measure WIRES: its line. Reading is what `read` takes longer than `write`.
before_write=
before_read=
measure() {
    local wires=$1 write both read bytes line
    write=$(seconds "$ours" write "$wires")
    bytes=$(cat "$folder/said")
    both=$(seconds "$ours" read "$wires")
    [ "$(cat "$folder/said")" = "$wires" ] || { echo "$wires wires: others were read" >&2; exit 1; }
    read=$(awk -v both="$both" -v write="$write" 'BEGIN { printf "%.3f", both - write }')
    line="$wires wires: $bytes bytes"
    line="$line; written in $write s, $(megabytes "$bytes" "$write") MB/s"
    line="$line; read in $read s, $(megabytes "$bytes" "$read") MB/s"
    if [ -n "$before_write" ]; then
        line="$line; x $(rate "$write" "$before_write") and x $(rate "$read" "$before_read")"
    fi
    before_write=$write
    before_read=$read
    echo "$line"
}

for wires in 1000 10000 100000 1000000; do measure "$wires"; done

clocks=5000000
time=$(seconds "$ours" clocks "$clocks")
echo "64-bit counter: $(rate "$clocks" "$time") clocks a second"
clocks=2000
time=$(seconds "$ours" wires "$clocks")
output=$(cat "$folder/said")
echo "10,000 wires: $(rate "$clocks" "$time") clocks a second"

if command -v iverilog >/dev/null; then
    "$ours" text 10000 >"$folder/chain.v"
    cat >"$folder/bench.v" <<BENCH
module bench;
  reg clk = 0;
  wire [7:0] o;
  integer k;
  q_Chain chain(.clk(clk), .i_i(8'd1), .o_o(o));
  initial begin
    for (k = 1; k <= $clocks; k = k + 1) begin
      #1;
      if (k == $clocks) \$display("%0d", o);
      clk = 1;
      #1 clk = 0;
    end
  end
endmodule
BENCH
    iverilog -g2005 -o "$folder/bench" "$folder/chain.v" "$folder/bench.v"
    time=$(seconds vvp -n "$folder/bench")
    [ "$(cat "$folder/said")" = "$output" ] || { echo "Icarus Verilog gives another output" >&2; exit 1; }
    echo "10,000 wires in Icarus Verilog: $(rate "$clocks" "$time") clocks a second"
else
    echo "Icarus Verilog isn't installed: nothing stands beside"
fi
