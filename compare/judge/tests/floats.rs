//! The f64 values: profiles in the Rust's set order, the values near those in whole units, and the order of the refusals.

use judge::exact::{kuhn, leduc, Played, Tree, SEATS};
use judge::floats::{bits, Call, Evaluation, EVALUATIONS};
use judge::listing_lists::{KUHN, LEDUC};
use judge::parts;
use judge::profiles::{profile, Kind, KINDS};
use random::Random;
use reinfors_core::best_response::enumerate_infosets;
use reinfors_core::game::Game;
use reinfors_games::kuhn::KuhnPoker;
use reinfors_games::leduc::LeducPoker;

fn in_order<G: Game>(game: &G, tree: &Tree) {
    let sets = enumerate_infosets(game).expect("a tree within the limit");
    assert_eq!(sets.len(), tree.sets.len());
    let mut first = 0;
    for (number, (key, state, seat)) in sets.iter().enumerate() {
        let set = &tree.sets[number];
        let actions = game.legal_actions(state, *seat).len();
        assert_eq!((tree.number(key), set.seat, set.first, set.actions), (number, *seat, first, actions));
        first += actions;
    }
}

#[test]
fn sets_are_in_the_rusts_order() {
    (2..=5).for_each(|players| in_order(&KuhnPoker { players }, kuhn(players)));
    in_order(&LeducPoker, leduc());
}

/// The values of the uniform profile, and those of the uniform table with D = 6 in whole units, / U.
fn uniform(game: u64, tree: &Tree) {
    let profile = profile(tree, Kind::Uniform, &mut Random::new(1));
    let table = parts::table(tree, 6, parts::Kind::Even, &mut Random::new(1));
    let played = Played::new(tree, 6, &table);
    let whole = |units: i128| units as f64 / played.units() as f64;
    let bests: Vec<f64> = (0..tree.seats).map(|seat| whole(played.best(seat).value)).collect();
    let nash_conv = whole(played.nash_conv());
    let expected = [
        vec![bests[1]],
        bests,
        played.worths()[..tree.seats].iter().map(|&worth| whole(worth)).collect(),
        vec![nash_conv],
        vec![nash_conv / tree.seats as f64],
    ];
    let call = Call::of(game, tree, 1, profile);
    for (asked, expected) in EVALUATIONS.into_iter().zip(expected) {
        let answer = call.answer(asked);
        assert_eq!((answer.refusal, answer.count), (0, expected.len() as u64));
        let near = |(&bits, &whole): (&u64, &f64)| (f64::from_bits(bits) - whole).abs() <= 1e-12;
        assert!(answer.bits.iter().zip(&expected).all(near), "{asked:?}: {answer:?} and {expected:?}");
        assert!(answer.bits[expected.len()..].iter().all(|&bits| bits == 0));
    }
}

#[test]
fn uniform_values_are_near_the_whole_ones() {
    (2..=5).for_each(|players| uniform(KUHN, kuhn(players)));
    uniform(LEDUC, leduc());
}

type Damage = fn(&mut Call);

/// Every later reason is there too.
#[test]
fn refusals_come_in_order() {
    let right = Call::of(KUHN, kuhn(2), 1, vec![0.5; 24]);
    let reasons: [(u64, Damage); 6] = [
        (7, |call| call.profile.push(0.5)),
        (5, |call| call.seat = 2),
        (4, |call| call.words -= 1),
        (3, |call| call.seats = 7),
        (2, |call| call.seats = 11),
        (1, |call| call.game = 2),
    ];
    let mut call = right.clone();
    for (number, damage) in reasons {
        damage(&mut call);
        for asked in EVALUATIONS {
            let one_seat = asked == Evaluation::BestResponseValue;
            let expected = if number == 5 && !one_seat { 7 } else { number };
            let answer = call.answer(asked);
            assert_eq!((answer.refusal, answer.count, answer.bits), (expected, 0, [0; SEATS]));
        }
    }
    assert!(EVALUATIONS.iter().all(|&asked| right.answer(asked).refusal == 0));
}

/// A NaN among the entries does not hide every answer: values of each sort are compared.
#[test]
fn profiles_have_values_of_each_sort() {
    let mut random = Random::new(5);
    let (mut finite, mut infinite, mut nan) = (0, 0, 0);
    for kind in KINDS {
        for number in 0..40 {
            let call = Call::of(KUHN, kuhn(3), number % 3, profile(kuhn(3), kind, &mut random));
            for value in EVALUATIONS.iter().flat_map(|&asked| call.answer(asked).bits).map(f64::from_bits) {
                finite += usize::from(value.is_finite() && value != 0.0);
                infinite += usize::from(value.is_infinite());
                nan += usize::from(value.to_bits() == bits(f64::NAN));
            }
        }
    }
    assert!(finite > 1_000 && infinite > 100 && nan > 100, "{finite}, {infinite} and {nan}");
}
