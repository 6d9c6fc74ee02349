#!/usr/bin/env bash
# Builds target/release/plain from Debian's packages of Rust crates.
set -eu
cd "$(dirname "$0")"
apt-get update -q >/dev/null
apt-get install -y -q librust-csv-dev librust-indexmap-dev >/dev/null
csv=$(dpkg -L librust-csv-dev | grep -m1 '/csv-[0-9.]*/Cargo.toml$')
registry=$(dirname "$(dirname "$csv")")
mkdir -p .cargo
printf '[source.crates-io]\nreplace-with = "debian"\n[source.debian]\ndirectory = "%s"\n' "$registry" >.cargo/config.toml
cargo build --release --offline --quiet
