//! Natural numbers of any length: a number that a program is started with is
//! judged whole, however many digits it has.

/// A number by its bits, the lowest first, without zeros at the end.
#[derive(Clone, Debug, PartialEq, Eq)]
pub struct Whole(Vec<bool>);

impl Whole {
    /// The number that a word of decimal digits is. None for any other word, and
    /// for an empty one.
    pub fn in_decimal(word: &str) -> Option<Whole> {
        if word.is_empty() || !word.bytes().all(|byte| byte.is_ascii_digit()) {
            return None;
        }
        let mut digits: Vec<u8> = word.bytes().map(|byte| byte - b'0').collect();
        let mut bits = Vec::new();
        while digits.iter().any(|digit| *digit != 0) {
            bits.push(halve(&mut digits) == 1);
        }
        Some(Whole(bits))
    }

    pub fn has_bit(&self, place: usize) -> bool {
        self.0.get(place) == Some(&true)
    }

    pub fn has_bit_at_or_above(&self, place: usize) -> bool {
        self.0.len() > place
    }

    /// None if it does not fit.
    pub fn as_u64(&self) -> Option<u64> {
        let bits = self.0.iter().rev();
        (self.0.len() <= 64).then(|| bits.fold(0, |high, bit| high << 1 | u64::from(*bit)))
    }
}

impl From<u32> for Whole {
    fn from(number: u32) -> Whole {
        let bits = u32::BITS - number.leading_zeros();
        Whole((0..bits).map(|place| number >> place & 1 == 1).collect())
    }
}

/// Halves a number in decimal digits, the highest first. Gives what is left over.
fn halve(digits: &mut [u8]) -> u8 {
    let mut left = 0;
    for digit in digits {
        let value = 10 * left + *digit;
        *digit = value / 2;
        left = value % 2;
    }
    left
}
