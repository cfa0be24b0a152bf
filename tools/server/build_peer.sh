#!/bin/sh
# build_peer.sh OUT: builds OUT/lease_peer, the same server on tokio. Needs cargo and Debian's librust-tokio-dev; works
# offline.
set -eu
[ $# -eq 1 ] || { echo "usage: build_peer.sh OUT" >&2; exit 2; }
here=$(cd "$(dirname "$0")" && pwd)
mkdir -p "$1"
out=$(cd "$1" && pwd)
registry=$(dpkg -L librust-tokio-dev 2>/dev/null | sed -n 's|/tokio-[^/]*/Cargo.toml$||p' | head -n 1)
[ -n "$registry" ] || { echo "librust-tokio-dev isn't installed" >&2; exit 1; }
tree=$out/lease_peer_tree
rm -rf "$tree"
mkdir -p "$tree/src" "$tree/.cargo"
cp "$here/peer.rs" "$tree/src/main.rs"
cat > "$tree/.cargo/config.toml" <<END
[source.crates-io]
replace-with = "debian"
[source.debian]
directory = "$registry"
[net]
offline = true
END
cat > "$tree/Cargo.toml" <<END
[package]
name = "lease_peer"
version = "0.0.0"
edition = "2021"
[profile.release]
opt-level = 3
lto = "thin"
codegen-units = 1
panic = "abort"
[dependencies]
tokio = { version = "1", features = ["rt", "time", "sync"] }
END
cd "$tree"
CARGO_TARGET_DIR="$out/lease_peer_target" cargo build --release --offline -q
cp "$out/lease_peer_target/release/lease_peer" "$out/lease_peer"
