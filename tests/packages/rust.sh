# The crate, in a program in Rust, with Debian's registry and no network.
export CARGO_HOME="$work/cargo" CARGO_NET_OFFLINE=true
mkdir -p "$work/program/src" "$CARGO_HOME"
cat > "$CARGO_HOME/config.toml" << 'CARGO'
[source.crates-io]
replace-with = "debian"
[source.debian]
directory = "/usr/share/cargo/registry"
CARGO
tar -C "$work" -xf /given/dist/township-*.crate
mv "$work"/township-*/ "$work/township"
cat > "$work/program/Cargo.toml" << 'CARGO'
[package]
name = "program"
version = "0.1.0"
edition = "2021"

[dependencies]
township = { path = "../township" }
CARGO
cat > "$work/program/src/main.rs" << 'RUST'
fn main() -> Result<(), Box<dyn std::error::Error>> {
    let notes = std::fs::read("/given/source/samples/b1.csv")?;
    let plat = township::Plat::read(&notes)?;
    println!("{}", plat.acres("sec. 5, lots 1 and 2, S1/2NE1/4.")?);
    Ok(())
}
RUST
cd "$work/program" || exit 1
try 'a Rust program compiles' cargo build --offline
prints 'a Rust program' '161.00
status 0' ./target/debug/program
