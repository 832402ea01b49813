//! The unchanged Rust's trees and sets on document 01's counts and keys.

mod common;

use common::COUNTS;
use judge::listing::{listing, Listed, Listing};
use reinfors_games::kuhn::KuhnPoker;
use reinfors_games::leduc::LeducPoker;

fn kuhn(players: usize) -> Listing {
    listing(&KuhnPoker { players }).expect("a tree within the limit")
}

fn leduc() -> Listing {
    listing(&LeducPoker).expect("a tree within the limit")
}

/// The key of a set: as many bytes as it says.
fn key(record: &[u8; 24]) -> &[u8] {
    &record[2..][..usize::from(record[1])]
}

/// Nodes, sets, and one entry for each legal action.
#[test]
fn trees_have_document_01s_counts() {
    let counts = |tree: Listing| {
        let entries = tree.sets.iter().map(|record| usize::from(record[22])).sum();
        (tree.nodes as usize, tree.sets.len(), entries)
    };
    assert_eq!((2..=6).map(kuhn).chain([leduc()]).map(counts).collect::<Vec<_>>(), COUNTS);
}

#[test]
fn kuhn_7_is_too_large() {
    assert!(listing(&KuhnPoker { players: 7 }).is_none());
}

#[test]
fn kuhn_2_keys_in_order() {
    let keys: Vec<Vec<u8>> = kuhn(2).sets.iter().map(|record| key(record).to_vec()).collect();
    let paper = "0 0; 1 1 0; 0 0 0 1; 1 1 1; 1 2 0; 1 2 1; 0 1; 1 0 0; 0 1 0 1; 1 0 1; 0 2; 0 2 0 1";
    let numbers = |key: &str| key.split_whitespace().map(|word| word.parse().expect("a byte")).collect();
    assert_eq!(keys, paper.split(';').map(numbers).collect::<Vec<Vec<u8>>>());
}

/// Case j's set: its first node has the lowest card on the other seat.
#[test]
fn a_record_byte_by_byte() {
    let sets = leduc().sets;
    let record = sets.iter().find(|record| key(record) == [1, 4, 255, 1, 2, 0]).expect("case j's set");
    assert_eq!(record[..8], [1, 6, 1, 4, 255, 1, 2, 0]);
    assert_eq!(record[8..15], [0; 7]);
    assert_eq!(record[15..], [255, 0, 4, 0, 0, 0, 0, 3, 0]);
}

/// What a record says twice agrees: the seat and its card stand in the key, Leduc's public card too.
fn agrees<G: Listed>(game: &G) {
    for record in listing(game).expect("a tree within the limit").sets {
        let seat = usize::from(record[0]);
        assert!(seat < game.num_agents() && usize::from(record[1]) <= 13 && record[23] == 0);
        assert_eq!(key(&record)[..2], [record[0], record[16 + seat]]);
        assert!(record[2 + usize::from(record[1])..15].iter().all(|&byte| byte == 0));
        assert!(record[16 + game.num_agents()..22].iter().all(|&byte| byte == 0));
    }
}

#[test]
fn records_agree_with_their_keys() {
    (2..=5).for_each(|players| agrees(&KuhnPoker { players }));
    agrees(&LeducPoker);
    assert!(kuhn(3).sets.iter().all(|record| record[15] == 255));
    assert!(leduc().sets.iter().all(|record| record[15] == record[4]));
}
