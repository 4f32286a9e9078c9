#!/bin/sh
# Builds state::is_sound for C in a temporary folder, compares it with the rules and measures it (bench.c). Needs rt and gcc, on x86-64.
set -eu
cd "$(dirname "$0")/../.."
tmp=$(mktemp -d)
trap 'rm -rf "$tmp"' EXIT
tar -c --exclude=out crates crates.txt | tar -x -C "$tmp"
bench=$tmp/crates/sound_bench
mkdir -p "$bench/src"
echo 'sound_bench staticlib: state' >>"$tmp/crates.txt"
cat >"$bench/src/lib.rt" <<'END'
// The soundness test for C.
#![tactic(auto)]

#[unsafe(no_mangle)]
pub extern "C" fn vgic_is_sound(s: &[u32]) -> bool {
    state::is_sound(s)
}
END
(cd "$bench" && rt lib) >"$tmp/log" 2>&1 || { cat "$tmp/log"; exit 1; }
gcc -O3 -o "$tmp/bench" tests/sound_bench/bench.c "$bench/out/libsound_bench.a"
"$tmp/bench"
