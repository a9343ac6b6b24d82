//! "Meters and the walk bill": prices and the bill.

use crate::memory::Role;

/// A memory's price for one descriptor word, in nanoseconds.
#[derive(Clone, Copy, PartialEq, Debug)]
pub enum Price {
    Flat(f64),
    Row { same: f64, new: f64 },
}

impl Price {
    /// Refusal 9: every figure from 0 to 4,096, ends and minus zero allowed.
    fn lawful(self) -> bool {
        let good = |figure: f64| (0.0..=4096.0).contains(&figure);
        match self {
            Price::Flat(figure) => good(figure),
            Price::Row { same, new } => good(same) && good(new),
        }
    }
}

/// The prices of both memories, tried for refusal 9 once when they are put
/// together.
#[derive(Clone, Copy, Debug)]
pub struct Prices {
    by_role: [Price; 2],
    lawful: bool,
}

impl Prices {
    pub fn new(on_chip: Price, external: Price) -> Prices {
        Prices { by_role: [on_chip, external], lawful: on_chip.lawful() && external.lawful() }
    }

    #[inline]
    pub fn lawful(&self) -> bool {
        self.lawful
    }

    #[inline]
    fn of(&self, role: Role) -> Price {
        self.by_role[role as usize]
    }
}

/// No row read yet. Rows of words are below 2^22 and never equal it.
pub const NO_ROW: u32 = u32::MAX;

/// Rows are 1,024 bytes of physical address.
#[inline]
pub const fn row_of(physical: u32) -> u32 {
    physical >> 10
}

/// The running total, the smoothed miss figure, and each memory's last row.
#[derive(Clone, Copy, PartialEq, Debug)]
pub struct Bill {
    pub total: f64,
    pub misses: f64,
    pub rows: [u32; 2],
}

impl Default for Bill {
    /// "A fresh bill is all zero with no rows."
    fn default() -> Bill {
        Bill { total: 0.0, misses: 0.0, rows: [NO_ROW; 2] }
    }
}

impl Bill {
    /// Refusal 9: neither figure infinite or NaN.
    #[inline]
    pub fn lawful(&self) -> bool {
        self.total.is_finite() && self.misses.is_finite()
    }

    /// One descriptor word, read at a physical address of a memory.
    #[inline]
    pub fn post_word(&mut self, role: Role, physical: u32, prices: &Prices) {
        let row = row_of(physical);
        let last = &mut self.rows[role as usize];
        let price = match prices.of(role) {
            Price::Flat(figure) => figure,
            Price::Row { same, .. } if *last == row => same,
            Price::Row { new, .. } => new,
        };
        *last = row;
        self.total += price;
    }

    /// One metered request or retry while the unit is on.
    #[inline]
    pub fn post_attempt(&mut self, missed: bool) {
        let x = if missed { 1.0 } else { 0.0 };
        self.misses += (x - self.misses) * 0.125;
    }
}

#[cfg(test)]
mod tests {
    use super::*;

    #[test]
    fn prices_from_0_to_4096() {
        let over = f64::from_bits(4096.0_f64.to_bits() + 1);
        for good in [0.0, -0.0, f64::MIN_POSITIVE, f64::from_bits(1), 4095.5, 4096.0] {
            assert!(Price::Flat(good).lawful(), "{good:?}");
        }
        for bad in [over, -f64::from_bits(1), -1.0, f64::NAN, f64::INFINITY, f64::NEG_INFINITY] {
            assert!(!Price::Flat(bad).lawful(), "{bad:?}");
            assert!(!Price::Row { same: bad, new: 1.0 }.lawful());
            assert!(!Price::Row { same: 1.0, new: bad }.lawful());
            assert!(!Prices::new(Price::Flat(1.0), Price::Flat(bad)).lawful());
            assert!(!Prices::new(Price::Flat(bad), Price::Flat(1.0)).lawful());
        }
    }

    #[test]
    fn the_first_read_is_a_new_row() {
        let prices = Prices::new(Price::Row { same: 1.0, new: 10.0 }, Price::Flat(100.0));
        let mut bill = Bill::default();
        bill.post_word(Role::OnChip, 0, &prices);
        assert_eq!((bill.total, bill.rows), (10.0, [0, NO_ROW]));
        bill.post_word(Role::OnChip, 1020, &prices);
        assert_eq!((bill.total, bill.rows), (11.0, [0, NO_ROW]));
        bill.post_word(Role::External, 1024, &prices);
        assert_eq!((bill.total, bill.rows), (111.0, [0, 1]));
        bill.post_word(Role::OnChip, 1024, &prices);
        assert_eq!((bill.total, bill.rows), (121.0, [1, 1]));
    }

    #[test]
    fn smoothing_is_an_eighth() {
        let mut bill = Bill::default();
        bill.post_attempt(true);
        assert_eq!(bill.misses, 0.125);
        bill.post_attempt(true);
        assert_eq!(bill.misses, 0.234375);
        bill.post_attempt(false);
        assert_eq!(bill.misses, 0.205078125);
    }

    #[test]
    fn good_postings_keep_a_bill_finite() {
        for sign in [1.0, -1.0] {
            let mut bill = Bill { total: sign * f64::MAX, misses: sign * f64::MAX, rows: [0; 2] };
            let prices = Prices::new(Price::Flat(4096.0), Price::Flat(4096.0));
            for step in 0..64 {
                bill.post_word(Role::OnChip, 0, &prices);
                bill.post_attempt(step % 2 == 0);
                assert!(bill.lawful());
            }
        }
    }
}
