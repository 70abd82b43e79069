#!/bin/sh
# Measures the proved relay work beside three peers on this machine. Run by hand:
#
#     (cd crates/relay_bench && rt run -- 1)      (makes crates/relay_bench/out/relay_bench)
#     bench/run.sh [COUNT [ROUNDS]]
#
# COUNT is the number of cells for each figure (100000), ROUNDS how often each program runs (3); the least time counts.
# What is made goes to target/bench.
set -eu

count=${1:-100000}
rounds=${2:-3}
bench=$(cd "$(dirname "$0")" && pwd)
root=$(dirname "$bench")
made=$root/target/bench
proved=$root/crates/relay_bench/out/relay_bench

if [ ! -x "$proved" ]; then
    echo "run.sh: $proved is missing. Make it with: (cd crates/relay_bench && rt run -- 1)" >&2
    exit 1
fi

# Debian's packages: the compilers, libcrypto's headers, and Rust crates (aes 0.6, sha1 0.10, sha3 0.10 in Debian 12).
packages="gcc libc6-dev libssl-dev librust-aes-dev librust-sha1-dev librust-sha3-dev"
command -v cargo >/dev/null || packages="$packages cargo"
command -v python3 >/dev/null || packages="$packages python3"
missing=
for package in $packages; do
    dpkg-query -W -f='${Status}' "$package" 2>/dev/null | grep -q 'ok installed' || missing="$missing $package"
done
if [ -n "$missing" ]; then
    if [ "$(id -u)" != 0 ]; then
        echo "run.sh: needs these packages. As root: apt-get update && apt-get install$missing" >&2
        exit 1
    fi
    echo "Installing from Debian:$missing"
    apt-get update -qq
    DEBIAN_FRONTEND=noninteractive apt-get install -qq -y --no-install-recommends $missing >/dev/null
fi

# No -march and no RUSTFLAGS: the C and the Rust peer have only what every x86-64 processor has.
mkdir -p "$made"
flags="-O3 -std=c11 -D_POSIX_C_SOURCE=199309L -Wall -Wextra -I$bench/common"
gcc $flags -o "$made/c" "$bench"/common/main.c "$bench"/c/*.c
gcc $flags -o "$made/openssl" "$bench"/common/main.c "$bench"/openssl/*.c -lcrypto
rm -rf "$made/rust-source"
cp -R "$bench/rust" "$made/rust-source"
(cd "$made/rust-source" && env -u RUSTFLAGS CARGO_TARGET_DIR="$made/rust" cargo build --release --offline --quiet)

echo "$(date -u +%Y-%m-%d), $(uname -srm), $(sed -n 's/^model name[^:]*: //p' /proc/cpuinfo | head -1)," \
    "$(nproc) processors, load $(cut -d' ' -f1 /proc/loadavg)"
echo "$(gcc --version | head -1); $(rustc --version); $(openssl version 2>/dev/null || echo OpenSSL)"
python3 -B "$bench/measure.py" "$count" "$rounds" \
    "proved=$proved" "C=$made/c" "Rust=$made/rust/release/relay_bench_rust" "OpenSSL=$made/openssl"
