//! The calls in f64 by what is asked, and their answers as the judge has them.

use chukkanalli::archive::{self, ValuesAnswer};
use judge::floats::{bits, Evaluation, Values};

/// One of the five calls; only `BestResponseValue` is handed the seat.
pub fn evaluate(
    asked: Evaluation,
    game: u64,
    seats: u64,
    work: &mut [u64],
    seat: u64,
    profile: &[f64],
) -> ValuesAnswer {
    match asked {
        Evaluation::BestResponseValue => archive::best_response_value(game, seats, work, seat, profile),
        Evaluation::BestResponseValues => archive::best_response_values(game, seats, work, profile),
        Evaluation::ProfileValues => archive::profile_values(game, seats, work, profile),
        Evaluation::NashConv => archive::nash_conv(game, seats, work, profile),
        Evaluation::Exploitability => archive::exploitability(game, seats, work, profile),
    }
}

/// The answer with its values as bits.
pub fn judged(answer: ValuesAnswer) -> Values {
    Values { refusal: answer.refusal, count: answer.count, bits: answer.values.map(bits) }
}
