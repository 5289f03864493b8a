#!/usr/bin/env bash
# Builds each example that has a Verilog text, runs that text in Icarus Verilog (`iverilog` and `vvp`, which
# have to be installed), and compares its outputs before each of 20 rising clocks with NAME.steps: a line a
# step, the outputs in order.
set -eu
here=$(cd "$(dirname "${BASH_SOURCE[0]}")" && pwd)
program=$here/../crates/quartzc/out/quartzc
folder=$(mktemp -d)
trap 'rm -rf "$folder"' EXIT
cd "$folder"

# bench NAME: a module that drives the clock of NAME and writes its outputs
bench() {
    local outputs wires connections formats
    outputs=$(sed -n 's/^  output \(o_[A-Za-z0-9_$]*\),\{0,1\}$/\1/p' "$1.v")
    wires=$(echo "$outputs" | paste -sd, -)
    connections=$(echo "$outputs" | sed 's/.*/, .&(&)/' | tr -d '\n')
    formats=$(echo "$outputs" | sed 's/.*/%b/' | paste -sd' ' -)
    cat <<TEXT
module bench;
  reg clk = 0;
  wire $wires;
  q_$1 circuit(.clk(clk)$connections);
  initial begin
    repeat (20) begin
      #1 \$display("$formats", $wires);
      #1 clk = 1;
      #1 clk = 0;
    end
    \$finish;
  end
endmodule
TEXT
}

failed=0
for text in "$here"/*.v; do
    name=$(basename "$text" .v)
    cp "$here/$name.qz" .
    "$program" build "$name" "$name.qz"
    bench "$name" >"bench_$name.v"
    iverilog -g2005 -Wall -o "$name.vvp" "bench_$name.v" "$name.v"
    vvp -n "$name.vvp" >"$name.out"
    if cmp -s "$name.out" "$here/$name.steps"; then
        echo "$name: its 20 steps are as they should be"
    else
        echo "failed: $name"
        failed=1
    fi
done
exit "$failed"
