#!/bin/sh
# Builds the calls for C, compares those of the CPU interface with a plain model of the rules, and measures them (bench.c). Needs rt and gcc, on x86-64.
set -eu
cd "$(dirname "$0")/../.."
tmp=$(mktemp -d)
trap 'rm -rf "$tmp"' EXIT
host/run library
gcc -std=gnu11 -O3 -Wall -Wextra -o "$tmp/bench" tests/interface_bench/bench.c target/staticlib/libvgic.a
"$tmp/bench"
