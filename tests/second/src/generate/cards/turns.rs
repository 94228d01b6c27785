//! Which card files there are: they take turns, so that each refusal comes equally often.

/// What is to be wrong with cards.
#[derive(Clone, Copy, PartialEq, Eq)]
pub enum Turn {
    Nothing,
    /// The least table that is too short.
    Short(u64),
    OneByteLess,
    OneByteMore,
    OtherLength,
    /// The count that says another length: 2 for L, 3 for O, 4 for A.
    Counts(usize),
    /// The first wrong mark: of the head, a latch, an output, a gate.
    Mark(usize),
    /// M or I too large.
    TooLarge(usize),
    Disagreeing,
    /// The least table with a literal out of range.
    Range(u64),
    Order,
    /// 1 comes before 18.
    MarkAndLength,
    MarkAndCount,
    RangeAndOrder,
}

/// One turn after another: about a third is whole.
pub fn round() -> Vec<Turn> {
    use Turn::*;
    let short = [1, 2, 3, 4, 5, 7].map(Short);
    let lengths = [OneByteLess, OneByteMore, OtherLength, Counts(2), Counts(3), Counts(4)];
    let marks = [0, 1, 2, 3].map(Mark);
    let counts = [TooLarge(0), TooLarge(1), Disagreeing];
    let literals = [Range(2), Range(3), Range(4), Order];
    let twice = [MarkAndLength, MarkAndCount, RangeAndOrder];
    let mut round = [&short[..], &lengths, &marks, &counts, &literals, &twice].concat();
    round.extend(vec![Nothing; round.len() / 2 + 1]);
    round
}

impl Turn {
    /// The refusal that is to come, if any.
    pub fn number(self) -> Option<u64> {
        use Turn::*;
        match self {
            Nothing => None,
            OneByteLess | OneByteMore | OtherLength | Counts(_) | MarkAndLength => Some(1),
            TooLarge(_) => Some(2),
            Disagreeing => Some(3),
            Short(_) => Some(4),
            Range(_) => Some(5),
            Order => Some(15),
            Mark(_) => Some(18),
            MarkAndCount | RangeAndOrder => Some(0),
        }
    }
}
