//! The reference in whole units: document 01's cases k and l and its counts, the unchanged Rust's f64 NashConv, and rivals of D parts and of others.

mod common;

use common::COUNTS;
use judge::exact::{kuhn, leduc, probabilities, Best, Node, Played, Tree};
use judge::finer::Answered;
use judge::parts::{equilibrium, pure_rival, rival, table, Kind, CASE_K, CASE_L, KINDS};
use judge::EventNumber;
use random::Random;
use reinfors_core::best_response::nash_conv;
use reinfors_core::game::Game;
use reinfors_games::kuhn::KuhnPoker;
use reinfors_games::leduc::LeducPoker;

/// The limits of D, and a few below.
fn ds(tree: &Tree) -> [u64; 4] {
    [1, 2, 3, tree.most_parts]
}

fn nash_conv_of_all(played: &Played) -> (Vec<i128>, Vec<i128>, i128) {
    let bests = (0..played.tree.seats).map(|seat| played.best(seat).value).collect();
    (played.worths()[..played.tree.seats].to_vec(), bests, played.nash_conv())
}

#[test]
fn case_k() {
    let played = Played::new(kuhn(2), 1, &CASE_K);
    assert_eq!(nash_conv_of_all(&played), (vec![0, 0], vec![6, 6], 12));
    assert_eq!(played.units(), 6);
    // Seat 0's sets in order: 0 0; 0 0 0 1; 0 1; 0 1 0 1; 0 2; 0 2 0 1. They stand at places 0, 2, 6, 8, 10 and 11.
    let mut reply = CASE_K;
    for set in [0, 6] {
        reply[2 * set..][..2].copy_from_slice(&[0, 1]);
    }
    assert_eq!(played.best(0).reply, reply);
}

#[test]
fn case_l() {
    let played = Played::new(kuhn(2), 3, &CASE_L);
    assert_eq!(nash_conv_of_all(&played), (vec![-9, 9], vec![-9, 9], 0));
    assert_eq!(played.units(), 162);
}

#[test]
fn trees_have_document_01s_counts() {
    let counts = |tree: &Tree| (tree.nodes.len(), tree.sets.len(), tree.entries);
    assert_eq!((2..=6).map(kuhn).chain([leduc()]).map(counts).collect::<Vec<_>>(), COUNTS);
}

/// The product of the fans and the number of decisions on the longest way down from a node.
fn longest(tree: &Tree, node: usize) -> (i128, u32) {
    let below = |children: &[usize]| {
        let ways: Vec<_> = children.iter().map(|&child| longest(tree, child)).collect();
        (ways.iter().map(|way| way.0).max().unwrap(), ways.iter().map(|way| way.1).max().unwrap())
    };
    match &tree.nodes[node] {
        Node::End(_) => (1, 0),
        Node::Chance(children) => {
            let (fans, moves) = below(children);
            (fans * children.len() as i128, moves)
        }
        Node::Decision { children, .. } => {
            let (fans, moves) = below(children);
            (fans, moves + 1)
        }
    }
}

#[test]
fn largest_payoffs() {
    let largest: Vec<i128> = (2..=6).map(kuhn).chain([leduc()]).map(|tree| tree.largest_payoff).collect();
    assert_eq!(largest, [2, 4, 6, 8, 10, 13]);
}

#[test]
fn c_and_m_are_the_trees() {
    for tree in (2..=6).map(kuhn).chain([leduc()]) {
        assert_eq!(longest(tree, 0), (tree.deals, tree.moves));
    }
}

#[test]
fn units_of_all_ends_add_up() {
    let mut random = Random::new(1);
    for tree in (2..=5).map(kuhn).chain([leduc()]) {
        for (d, kind) in ds(tree).into_iter().zip(KINDS) {
            let table = table(tree, d, kind, &mut random);
            let played = Played::new(tree, d, &table);
            let units = played.units_of_nodes(None);
            let ends = tree.nodes.iter().zip(units).filter(|(node, _)| matches!(node, Node::End(_)));
            assert_eq!(ends.map(|(_, units)| units).sum::<i128>(), played.units());
            assert_eq!(played.worths().iter().sum::<i128>(), 0);
        }
    }
}

/// The f64 NashConv of the same profile, in units.
fn agrees<G: Game<Event = f64>>(game: &G, tree: &Tree, d: u64, kind: Kind, random: &mut Random) {
    let table = table(tree, d, kind, random);
    let entries = probabilities(&table, d);
    let rust = nash_conv(game, &EventNumber, &tree.profile(&entries)).expect("a tree within the limit");
    let played = Played::new(tree, d, &table);
    let exact = played.nash_conv() as f64 / played.units() as f64;
    assert!((rust - exact).abs() <= 1e-9 * exact.max(1.0), "{rust} and {exact}");
}

#[test]
fn the_rusts_nash_conv_agrees() {
    let mut random = Random::new(2);
    for kind in KINDS {
        for players in 2..=4 {
            for d in ds(kuhn(players)) {
                agrees(&KuhnPoker { players }, kuhn(players), d, kind, &mut random);
            }
        }
        for d in ds(leduc()) {
            agrees(&LeducPoker, leduc(), d, kind, &mut random);
        }
    }
    agrees(&KuhnPoker { players: 5 }, kuhn(5), 16, Kind::Mixed, &mut random);
}

/// All 2^6 pure rivals of a seat, on tables of each kind.
#[test]
fn the_best_of_kuhn_2s_pure_rivals() {
    let (tree, mut random) = (kuhn(2), Random::new(3));
    for _ in 0..8 {
        for (d, kind) in ds(tree).into_iter().flat_map(|d| KINDS.map(|kind| (d, kind))) {
            let table = table(tree, d, kind, &mut random);
            for seat in 0..2 {
                let worth = |number| {
                    let rival = pure_rival(tree, &table, seat, d, number);
                    Played::new(tree, d, &rival).worths()[seat]
                };
                let best = (0..1 << 6).map(worth).max().expect("64 rivals");
                assert_eq!(Played::new(tree, d, &table).best(seat).value, best);
            }
        }
    }
}

/// The reply is worth the best value and is its own best reply; a table's best value asks nothing of the seat's own entries.
#[test]
fn no_rival_is_worth_more() {
    let mut random = Random::new(4);
    for (tree, rivals) in [(kuhn(2), 200), (kuhn(3), 60), (kuhn(4), 8), (leduc(), 8)] {
        for (d, kind) in ds(tree).into_iter().flat_map(|d| KINDS.map(|kind| (d, kind))) {
            let table = table(tree, d, kind, &mut random);
            let played = Played::new(tree, d, &table);
            for seat in 0..tree.seats {
                let best = played.best(seat);
                let replied = Played::new(tree, d, &best.reply);
                assert_eq!(replied.worths()[seat], best.value);
                assert!(played.worths()[seat] <= best.value);
                let sequences = played.sequences(seat);
                for _ in 0..rivals {
                    let kind = random.pick(&KINDS);
                    let rival = rival(tree, &table, seat, d, kind, &mut random);
                    let worth = Played::new(tree, d, &rival).worths()[seat];
                    assert!(worth <= best.value);
                    assert_eq!(sequences.worth(&rival), worth);
                }
                let last = rival(tree, &table, seat, d, Kind::Mixed, &mut random);
                let again = Played::new(tree, d, &last).best(seat);
                assert_eq!((again.value, again.reply), (best.value, best.reply));
            }
        }
    }
}

/// A tie goes to the lowest action, also in a set without units.
#[test]
fn ties_go_to_the_lowest_action() {
    let played = Played::new(kuhn(2), 1, &CASE_K);
    let units = played.units_of_nodes(Some(1));
    for (number, set) in kuhn(2).sets.iter().enumerate().filter(|(_, set)| set.seat == 1) {
        if set.members.iter().all(|&member| units[member] == 0) {
            assert_eq!(kuhn(2).part(&played.best(1).reply, number), [1, 0]);
        }
    }
}

fn wide(table: &[u8]) -> Vec<u64> {
    table.iter().map(|&part| u64::from(part)).collect()
}

/// E^m.
fn scale(tree: &Tree, e: u64) -> i128 {
    i128::from(e).pow(tree.moves)
}

/// A table with the same parts in each of a seat's sets, all of two actions.
fn with_parts(tree: &Tree, table: &[u8], seat: usize, parts: [u64; 2]) -> Vec<u64> {
    let mut list = wide(table);
    for set in tree.sets.iter().filter(|set| set.seat == seat) {
        list[set.first..][..2].copy_from_slice(&parts);
    }
    list
}

#[test]
fn case_k_against_ten_parts() {
    let played = Played::new(kuhn(2), 1, &CASE_K);
    let grain = played.grain(0, 10).expect("within i128");
    let even = with_parts(kuhn(2), &CASE_K, 0, [5, 5]);
    assert_eq!(grain.units_of_nodes(&even)[0], 6_000);
    assert_eq!(grain.worth(&even), 3_000);
    for (e, worth) in [(1, 6), (2, 48), (10, 6_000)] {
        let grain = played.grain(0, e).expect("within i128");
        assert_eq!(grain.worth(&grain.copy(&played.best(0).reply)), worth);
    }
}

#[test]
fn case_l_with_ten_parts() {
    let played = Played::new(kuhn(2), 3, &CASE_L);
    let grain = played.grain(0, 10).expect("within i128");
    let copy = grain.copy(&played.best(0).reply);
    assert_eq!(copy.iter().filter(|&&part| part == 10).count(), 6);
    assert_eq!(grain.worth(&copy), -9_000);
}

/// The largest E that i128 holds with the most parts in the table.
#[test]
fn the_largest_grains() {
    let mut random = Random::new(9);
    let largest = [37_817_785_460, 277_669, 1_766, 422, 69, 374];
    for (tree, e) in (2..=6).map(kuhn).chain([leduc()]).zip(largest) {
        let (seat, d) = (tree.seats - 1, tree.most_parts);
        let table = table(tree, d, Kind::Mixed, &mut random);
        let played = Played::new(tree, d, &table);
        assert!(played.grain(seat, e + 1).is_none());
        let grain = played.grain(seat, e).expect("within i128");
        let best = played.best(seat);
        assert_eq!(grain.worth(&grain.copy(&best.reply)), scale(tree, e) * best.value);
        let rival = rival(tree, &wide(&table), seat, e, Kind::Mixed, &mut random);
        let worth = grain.worth(&rival);
        assert!(worth <= scale(tree, e) * best.value);
        assert_eq!(played.sequences(seat).finer(e).expect("within i128").worth(&rival), worth);
    }
}

/// Parts that do not add up to E in the seat's sets or that are not the table's in the others' are no rival's.
#[test]
fn what_no_finer_rival_is() {
    let tree = kuhn(2);
    let played = Played::new(tree, 1, &CASE_K);
    for e in [1, 2, 7, 1_000] {
        let grain = played.grain(0, e).expect("within i128");
        let bets = with_parts(tree, &CASE_K, 0, [0, e]);
        assert!(grain.has(&bets));
        assert!(!grain.has(&bets[1..]) && !grain.has(&[&bets[..], &[0]].concat()));
        assert!(
            !grain.has(&with_parts(tree, &CASE_K, 0, [0, e - 1])) && !grain.has(&with_parts(tree, &CASE_K, 0, [1, e]))
        );
        for (number, set) in tree.sets.iter().enumerate() {
            let [first, last] = [bets[set.first], bets[set.first + 1]];
            let one_less = if last > 0 { [first, last - 1] } else { [first - 1, last] };
            // The last one adds up to E for who counts in 64 bits.
            for parts in [one_less, [first + 1, last], [0, 0], [9, 0], [u64::MAX - e + 1, 2 * e]] {
                let mut other = bets.clone();
                other[set.first..][..2].copy_from_slice(&parts);
                assert!(!grain.has(&other), "{parts:?} in set {number} with {e} parts");
            }
            let mut other = bets.clone();
            other[set.first..][..2].copy_from_slice(&[last, first]);
            assert_eq!(grain.has(&other), set.seat == 0, "the parts of set {number} exchanged");
        }
    }
    // Seat 0 bets all cards, and seat 1 is made to call with card 0, in set 9: more than any reply gains, which is 6.
    let mut called = with_parts(tree, &CASE_K, 0, [0, 1]);
    called[2 * 9..][..2].copy_from_slice(&[0, 1]);
    let table: Vec<u8> = called.iter().map(|&part| part as u8).collect();
    assert_eq!(Played::new(tree, 1, &table).worths()[0], 8);
    assert!(!played.grain(0, 1).expect("within i128").has(&called));
}

/// A rival with D parts is worth D^m times what it is as a table.
#[test]
fn grain_d_is_the_tables() {
    let mut random = Random::new(5);
    for tree in [kuhn(2), kuhn(3), kuhn(4), leduc()] {
        for (d, kind) in [1, 2, 3, 10].into_iter().zip(KINDS) {
            let table = table(tree, d, kind, &mut random);
            let played = Played::new(tree, d, &table);
            for seat in 0..tree.seats {
                let rival = rival(tree, &table, seat, d, Kind::Mixed, &mut random);
                let worth = Played::new(tree, d, &rival).worths()[seat];
                assert_eq!(played.grain(seat, d).expect("within i128").worth(&rival), scale(tree, d) * worth);
            }
        }
    }
}

/// Holds each seat's reply to so many finer rivals. NashConv, which is answered, is 0 exactly if no seat has one that is worth more than its own entries.
fn held(played: &Played, rivals: usize, whole: usize, random: &mut Random) -> i128 {
    let (mut nash_conv, mut gains) = (0, false);
    for (seat, &worth) in played.worths()[..played.tree.seats].iter().enumerate() {
        let Best { value, reply } = played.best(seat);
        let answered = Answered { sequences: played.sequences(seat), worth, best: value, reply: &reply };
        gains |= answered.held(rivals, whole, random).gains;
        nash_conv += value - worth;
    }
    assert_eq!(nash_conv == 0, !gains);
    nash_conv
}

#[test]
fn no_finer_rival_is_worth_more() {
    let mut random = Random::new(6);
    for (tree, whole) in [(kuhn(2), 50), (kuhn(3), 18), (kuhn(4), 3), (leduc(), 3)] {
        for (d, kind) in ds(tree).into_iter().flat_map(|d| KINDS.map(|kind| (d, kind))) {
            let table = table(tree, d, kind, &mut random);
            held(&Played::new(tree, d, &table), 200, whole, &mut random);
        }
    }
}

#[test]
fn no_finer_rival_of_the_large_games_is_worth_more() {
    let mut random = Random::new(7);
    for (tree, d, kind) in [(kuhn(5), 16, Kind::Mixed), (kuhn(5), 3, Kind::Sparse), (kuhn(6), 16, Kind::Mixed)] {
        let table = table(tree, d, kind, &mut random);
        held(&Played::new(tree, d, &table), 200, 1, &mut random);
    }
}

/// Case l among them. A part moved in one set, and most have a finer rival that is worth more.
#[test]
fn no_finer_rival_beats_an_equilibrium() {
    let (tree, mut random) = (kuhn(2), Random::new(8));
    assert_eq!(equilibrium(1, 0), CASE_L);
    for thirds in [1, 2, 5, 21] {
        for bets in 0..=thirds {
            let (d, table) = (3 * u64::from(thirds), equilibrium(thirds, bets));
            let mut nash_conv = |table: &[u8], rivals| held(&Played::new(tree, d, table), rivals, 6, &mut random);
            assert_eq!(nash_conv(&table, 200), 0);
            let moved = tree.sets.iter().map(|set| {
                let mut other = table.clone();
                let part = &mut other[set.first..][..2];
                let from = usize::from(part[0] == 0);
                part[from] -= 1;
                part[1 - from] += 1;
                nash_conv(&other, 6)
            });
            assert!(moved.filter(|&nash_conv| nash_conv > 0).count() >= 6);
        }
    }
}
