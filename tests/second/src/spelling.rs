//! How an accepted file is spelled: which zeros it has that may be left off.

pub struct Spelling {
    /// The header ends with a count of 0 that may be left off.
    pub zero_counts: bool,
    /// Some latch's line ends with a reset of 0.
    pub zero_resets: bool,
}

impl Spelling {
    /// Of an accepted file with so many latches.
    pub fn of(file: &[u8], latches: usize) -> Spelling {
        let mut lines = file.split(|&byte| byte == b'\n');
        let mut fields = || -> Vec<&[u8]> {
            let line = lines.next().unwrap_or_default();
            line.split(|&byte| byte == b' ').collect()
        };
        let header = fields();
        let (before, latch) = match header[0] {
            b"aag" => (number(header[2]), 2),
            _ => (0, 1),
        };
        (0..before).for_each(|_| drop(fields()));
        let mut resets = (0..latches).map(|_| fields());
        Spelling {
            // The name comes before the counts.
            zero_counts: header.len() > 6 && header.last() == Some(&b"0".as_slice()),
            zero_resets: resets.any(|fields| fields.get(latch) == Some(&b"0".as_slice())),
        }
    }

    pub fn is_shortest(&self) -> bool {
        !self.zero_counts && !self.zero_resets
    }
}

fn number(digits: &[u8]) -> usize {
    let digits = std::str::from_utf8(digits).expect("digits");
    digits.parse().expect("a count")
}
