include!("../source.rs");

fn main() {
    bring_in(&[
        ("game", "crates/reinfors-core/src/game.rs"),
        ("reward", "crates/reinfors-core/src/reward.rs"),
        ("best_response", "crates/reinfors-core/src/solvers/best_response.rs"),
    ]);
}
