//! "Meters and the walk bill": the meters.

/// Fresh requests and retries that got an address or a fault, and descriptor
/// words read. Each stops at 4,294,967,295.
#[derive(Clone, Copy, PartialEq, Eq, Debug, Default)]
pub struct Meters {
    pub fresh: u32,
    pub retries: u32,
    pub words: u32,
}

impl Meters {
    #[inline]
    pub fn post_fresh(&mut self) {
        self.fresh = self.fresh.saturating_add(1);
    }

    #[inline]
    pub fn post_retry(&mut self) {
        self.retries = self.retries.saturating_add(1);
    }

    #[inline]
    pub fn post_words(&mut self, count: u32) {
        self.words = self.words.saturating_add(count);
    }
}

#[cfg(test)]
mod tests {
    use super::*;

    #[test]
    fn meters_stop() {
        let mut meters = Meters { fresh: u32::MAX, retries: u32::MAX - 1, words: u32::MAX - 1 };
        meters.post_fresh();
        meters.post_retry();
        meters.post_retry();
        meters.post_words(2);
        assert_eq!(meters, Meters { fresh: u32::MAX, retries: u32::MAX, words: u32::MAX });
    }
}
