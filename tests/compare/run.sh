#!/bin/sh
# Runs the reference's own tests, and compares the library with it, call by call: tests/compare/run.sh [SECONDS [SEED]], 40 seconds and the day's date for a seed where none
# are named. The lister is compared too where the toolchain has built it. Run it from the repository's root.
set -e
sh tools/lib.sh
export CARGO_TARGET_DIR=target/cargo
cargo test --offline --quiet --release --manifest-path tests/reference/Cargo.toml
cargo build --offline --quiet --release --manifest-path tests/compare/Cargo.toml
set -- --seconds "${1:-40}" --seed "${2:-$(date +%Y%m%d)}"
[ ! -e crates/lister/out/lister ] || set -- "$@" --lister crates/lister/out/lister
target/cargo/release/compare "$@"
