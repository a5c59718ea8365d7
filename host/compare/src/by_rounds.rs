//! What the published Rust, which has 24 rounds, says of any number nr of them: Keccak-p[1600, nr] of FIPS 202 is its last nr rounds.

use keccak_tables::OP_WORDS;
use oracle::lanes::{self, State};
use oracle::{Bus, ROUND_COLUMNS, Side, Tuple};

use crate::by_floor;

/// The rounds of the Rust.
pub const ALL: u64 = 24;

/// The first of nr rounds.
pub fn first_round(nr: u64) -> u64 {
    ALL - nr
}

/// The states before each of nr rounds and after the last, by plain lanes.
pub fn states(nr: u64, input: &State) -> Vec<State> {
    let rounds = first_round(nr) as usize..ALL as usize;
    let after = rounds.scan(*input, |state, round| {
        *state = lanes::next(state, round);
        Some(*state)
    });
    [*input].into_iter().chain(after).collect()
}

/// Keccak-p[1600, nr].
pub fn keccak_p(nr: u64, input: &State) -> State {
    *states(nr, input).last().expect("there is the input at least")
}

/// The round table of a list by nr rounds, and the Rust's floor. The Rust writes all 24 rows from round 0 on, so the rounds that are left out are run backwards:
/// its table of what they give has the operation's input in START of the first row that is kept.
pub fn round_table(nr: u64, ops: &[u64]) -> Vec<u64> {
    let (n, first) = (ops.len() / OP_WORDS, first_round(nr) as usize);
    let mut earlier = ops.to_vec();
    for operation in earlier.chunks_exact_mut(OP_WORDS) {
        let input = operation[2..27].try_into().expect("25 lanes");
        operation[2..27].copy_from_slice(&lanes::input_of(&input, first));
    }
    let published = oracle::round_table(&earlier);
    let rows = published.chunks_exact(ROUND_COLUMNS).enumerate();
    let kept = rows
        .take(n * ALL as usize)
        .filter(|(row, _)| row % ALL as usize >= first);
    let mut table: Vec<u64> = kept.flat_map(|(_, row)| row).copied().collect();
    let padding = &oracle::round_table(&[])[..ROUND_COLUMNS];
    let rows = nr as usize * n;
    (rows..by_floor::height(4, rows)).for_each(|_| table.extend(padding));
    table
}

/// The tuples of a core row by nr rounds: those of 24, but for the round at which INPUT is sent.
pub fn core_tuples(nr: u64, row: &[u64], syscall: u64) -> Vec<Tuple> {
    let mut tuples = oracle::core_tuples(row, syscall);
    for tuple in &mut tuples {
        if tuple.bus == Bus::Keccak && tuple.side == Side::Sender {
            assert_eq!(tuple.values[2], 0, "the Rust sends INPUT at round 0");
            tuple.values[2] = first_round(nr);
        }
    }
    tuples
}

/// The refusal of a number of rounds, which comes before all others: 8 and the number.
pub fn refusal(nr: u64) -> Option<(u64, u64)> {
    (nr == 0 || nr > ALL).then_some((8, nr))
}

#[cfg(test)]
mod tests {
    use super::*;

    /// The first 32 bytes of TurboSHAKE128 of the empty message with byte 1F (RFC 9861), which is one Keccak-p[1600, 12].
    #[test]
    fn twelve_rounds_are_those_that_are_published() {
        let mut input = [0; 25];
        input[0] = 0x1F;
        input[20] = 0x80 << 56;
        let output = keccak_p(12, &input);
        let published = "1E415F1C5983AFF2169217277D17BB538CD945A397DDEC541F1CE41AF2C1B74C";
        let bytes = output[..4].iter().flat_map(|lane| lane.to_le_bytes());
        assert_eq!(bytes.map(|byte| format!("{byte:02X}")).collect::<String>(), published);
    }

    #[test]
    fn all_rounds_are_the_rust_s() {
        let mut operation = [0; OP_WORDS];
        operation[2..27].iter_mut().zip(1..).for_each(|(lane, at)| *lane = at);
        assert_eq!(round_table(24, &operation), oracle::round_table(&operation));
        let input: State = operation[2..27].try_into().unwrap();
        assert_eq!(keccak_p(24, &input), lanes::keccak_f(&input));
        assert_eq!(keccak_p(24, &input), keccak_p(1, &states(24, &input)[23]));
    }
}
