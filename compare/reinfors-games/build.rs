include!("../source.rs");

fn main() {
    bring_in(&[("kuhn", "crates/reinfors-games/src/kuhn.rs"), ("leduc", "crates/reinfors-games/src/leduc.rs")]);
}
