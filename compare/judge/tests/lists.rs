//! The lists themselves: what the paper's moves reach, and that the committed files are what the seed makes.

use judge::list::{answer, home, List};
use judge::{floats_lists, kuhn_lists, kuhn_paper, leduc_lists, leduc_paper, listing_lists, units_lists};
use reinfors_core::game::{Actor, Game};
use reinfors_games::leduc::{LeducPoker, LeducState};
use std::collections::HashSet;
use std::fs;
use std::path::Path;

#[test]
fn kuhns_reachable_positions() {
    for (n, count) in [(2, 58), (3, 617), (4, 7_886)] {
        let all = kuhn_paper::all(n);
        assert_eq!(all.len(), count);
        let set: HashSet<_> = all.iter().collect();
        assert_eq!(set.len(), count);
        for hand in all.iter().step_by(7) {
            assert!(kuhn_paper::reachable(n, hand));
            for action in 0..=2 {
                let mut more = hand.clone();
                more.history.push(action);
                assert_eq!(kuhn_paper::reachable(n, &more), set.contains(&more));
            }
        }
    }
}

#[test]
fn leducs_reachable_positions() {
    let all = leduc_paper::all();
    assert_eq!(all.len(), 9_457);
    assert_eq!(all.iter().collect::<HashSet<_>>().len(), 9_457);
}

/// Case i's contributions, which the Rust does not hand out.
#[test]
fn thirteen_each_paid() {
    let rounds = [vec![2, 2, 1], vec![2, 2, 1]];
    assert_eq!(leduc_paper::Hand { cards: vec![0, 1], public: Some(2), rounds }.paid(), [13, 13]);
}

/// The moves of the paper are the Rust's: who acts, what is legal, which cards are left.
#[test]
fn the_papers_moves_are_the_rusts() {
    for hand in leduc_paper::all().into_iter().filter(|hand| !hand.ended()) {
        let state = LeducState { cards: hand.cards.clone(), public: hand.public, history: hand.rounds.clone() };
        let next: Vec<LeducState> = match LeducPoker.actor(&state) {
            Actor::Chance => {
                let fan = LeducPoker.chance_node(&state).enumerable_count().expect("the deal can be enumerated");
                (0..fan).map(|outcome| LeducPoker.apply_chance_node(&state, outcome).next_state).collect()
            }
            Actor::Agent(seat) => {
                let legal = LeducPoker.legal_actions(&state, seat);
                legal.into_iter().map(|action| LeducPoker.step(&state, &[action; 2]).next_state).collect()
            }
            Actor::Simultaneous => unreachable!("Leduc is sequential"),
        };
        let moves = hand.moves().into_iter();
        let ours: Vec<LeducState> =
            moves.map(|h| LeducState { cards: h.cards, public: h.public, history: h.rounds }).collect();
        assert_eq!(next, ours);
    }
}

/// The stdin or the stdout of a program's list.
fn committed(program: &str, file: &str) -> String {
    let path = home(&Path::new(env!("CARGO_MANIFEST_DIR")).join("../../crates"), program).join(file);
    fs::read_to_string(&path).unwrap_or_else(|e| panic!("{}: {e}", path.display()))
}

#[test]
fn committed_lists_are_the_seeds() {
    let lists = [
        ("replay_kuhn", kuhn_lists::list(judge::SEED)),
        ("replay_leduc", leduc_lists::list(judge::SEED)),
        ("replay_listing", listing_lists::list(judge::SEED)),
        ("replay_units", units_lists::list(judge::SEED)),
        ("replay_f64", floats_lists::list(judge::SEED)),
    ];
    for (program, list) in lists {
        assert!(list.stdin == committed(program, "stdin"), "{program}: stdin is another list");
        assert!(list.stdout == committed(program, "stdout"), "{program}: stdout has other answers");
    }
}

/// Every record says all that its answer rests on.
#[test]
fn records_can_be_answered_alone() {
    let answered = |list: &List, answer: fn(&str) -> String| list.stdin.lines().map(answer).collect::<String>();
    let (kuhn, leduc) = (kuhn_lists::list(judge::SEED), leduc_lists::list(judge::SEED));
    assert!(answered(&kuhn, answer::<kuhn_lists::Given>) == kuhn.stdout);
    assert!(answered(&leduc, answer::<leduc_lists::Given>) == leduc.stdout);
    let listing = listing_lists::list(judge::SEED);
    assert!(answered(&listing, listing_lists::answer) == listing.stdout);
    let units = units_lists::list(judge::SEED);
    assert!(answered(&units, units_lists::answer) == units.stdout);
    let floats = floats_lists::list(judge::SEED);
    assert!(answered(&floats, floats_lists::answer) == floats.stdout);
}
