//! What a run of the differential tests has seen, counted by name.

use super::images::Image;
use super::lists::{self, Record};
use super::*;
use std::collections::{BTreeMap, BTreeSet};
use std::fmt::Write as _;

/// How often something was seen, by name.
#[derive(Default)]
pub struct Coverage(BTreeMap<String, u64>);

impl Coverage {
    pub fn see(&mut self, name: impl AsRef<str>) {
        match self.0.get_mut(name.as_ref()) {
            Some(count) => *count += 1,
            None => {
                self.0.insert(name.as_ref().into(), 1);
            }
        }
    }

    pub fn see_if(&mut self, seen: bool, name: &str) {
        if seen {
            self.see(name);
        }
    }

    pub fn count(&self, name: &str) -> u64 {
        self.0.get(name).copied().unwrap_or(0)
    }

    /// Prints all counts, and fails where one of these is below `least`.
    pub fn demand(&self, least: u64, names: &[String]) {
        let mut table = String::new();
        for (name, count) in &self.0 {
            writeln!(table, "  {count:>9}  {name}").unwrap();
        }
        println!("{table}");
        let short: Vec<_> = names.iter().filter(|name| self.count(name) < least).collect();
        assert!(short.is_empty(), "seen fewer than {least} times: {short:?}");
    }
}

/// What an accepted list has in one megabyte.
pub fn see_list(seen: &mut Coverage, list: &[Record]) {
    let (mixed, full) = lists::mixed_megabytes(list);
    seen.see_if(mixed > 0, "large, small and tiny pages in a megabyte");
    seen.see_if(mixed > 1, "large, small and tiny pages in some megabytes");
    seen.see_if(full > 0, "a full megabyte of large, small and tiny pages");
    seen.see_if(full > 1, "full megabytes of large, small and tiny pages");
}

/// What `see_list` must have seen.
pub const LISTS: [&str; 4] = [
    "large, small and tiny pages in a megabyte",
    "large, small and tiny pages in some megabytes",
    "a full megabyte of large, small and tiny pages",
    "full megabytes of large, small and tiny pages",
];

/// What there is in an accepted image with these pages.
pub fn see_image(seen: &mut Coverage, image: &Image, pages: &[Record]) {
    let tables = image.tables();
    let different: BTreeSet<_> = tables.iter().copied().collect();
    let has = |question: &dyn Fn((u32, u32)) -> bool| different.iter().copied().any(question);
    seen.see_if(different.len() < tables.len(), "a shared table");
    seen.see_if(has(&|(at, _)| at == image.base), "a table over the first level");
    seen.see_if(
        has(&|(at, size)| size == 0x400 && has(&|other| other == (at & !0xFFF, 0x1000))),
        "a coarse table within a fine one",
    );
    seen.see_if(
        has(&|(at, size)| u64::from(at) + u64::from(size) == image.end()),
        "a table at the memory's end",
    );
    let words = |at: u32, size: u32| (at..).step_by(4).take(size as usize / 4);
    seen.see_if(
        has(&|(at, size)| size == 0x400 && words(at, size).any(|at| image.word(at) & 3 == 3)),
        "a coarse table's tiny word",
    );
    seen.see_if(!image.base.is_multiple_of(0x400), "a base between two tables");
    seen.see_if(image.end() == 1 << 32, "a memory that ends with the space");
    seen.see_if(pages.is_empty(), "no page");
    for (kind, access) in (0..16).map(|n| (n / 4, n % 4)) {
        let sort = |page: &Record| page.kind == kind && page.access == access;
        seen.see_if(pages.iter().any(sort), &format!("type {kind}, access {access}"));
    }
}

/// The pages that `see_image` may see: every type with every access.
pub fn pages() -> Vec<String> {
    (0..16).map(|n| format!("type {}, access {}", n / 4, n % 4)).collect()
}

/// The second-level word that a walk ended in, by its address and the first-level
/// word: its table and type. Where its page has more words than one, also whether
/// they are equal to it; if not, whether it is alone or which is the first other one.
pub fn see_word(seen: &mut Coverage, lending: &Lending, first: u32, at: u32) {
    let (table, small) = if first & 3 == 3 { ("fine", 4) } else { ("coarse", 1) };
    let fetch = |at| Second.fetch(lending, at) as u32;
    let own = fetch(at);
    let (kind, count) =
        [("fault", 1), ("large", 16 * small), ("small", small), ("tiny", 1)][own as usize & 3];
    seen.see(format!("{table} table's {kind} word"));
    if count == 1 {
        return;
    }
    let head = at & !(4 * count - 1);
    let others: Vec<u32> = (0..count).filter(|n| fetch(head + 4 * n) != own).collect();
    let part = |n| match n {
        0 => "at the head",
        n if n == count - 1 => "at the end",
        _ => "in the middle",
    };
    let how = match others[..] {
        [] => "as all of its group".into(),
        _ if others.len() as u32 == count - 1 => format!("alone {}", part((at - head) / 4)),
        [other, ..] => format!("of a group broken {}", part(other)),
    };
    seen.see(format!("{table} table's {kind} word, {how}"));
}

/// What `see_word` must have seen.
pub fn words() -> Vec<String> {
    let mut names = Vec::new();
    for table in ["coarse", "fine"] {
        for kind in ["fault", "large", "small", "tiny"] {
            names.push(format!("{table} table's {kind} word"));
        }
    }
    for word in ["coarse table's large word", "fine table's large word", "fine table's small word"]
    {
        names.push(format!("{word}, as all of its group"));
        for at in ["at the head", "in the middle", "at the end"] {
            names.push(format!("{word}, alone {at}"));
            names.push(format!("{word}, of a group broken {at}"));
        }
    }
    names
}

/// What one call was, seen from its answer and the states around it.
pub fn see_step(seen: &mut Coverage, call: &[u8], answer: (u32, i64), before: &[u8], after: &[u8]) {
    let (number, value) = answer;
    let (old, new) = (View(before), View(after));
    let words = new.words().wrapping_sub(old.words());
    seen.see(format!("answer {number:03}"));
    let kind = ["", "write", "read", "request", "drop", "shift report"][call[0] as usize];
    seen.see(format!("{kind} answered {number:03}"));
    let slots = 0..32;
    let filled = (0..32).find(|&slot| old.slot(slot) != new.slot(slot));
    if matches!(call[0], 1 | 2) && call[1].is_multiple_of(4) && call[1] <= 0x50 {
        let how = if matches!(number, 6 | 8) { " refused" } else { "" };
        seen.see(format!("{kind} of {:02x}{how}", call[1]));
    }
    let attempt = call[0] == 3 || call[0] == 1 && call[1] == ACKNOWLEDGE;
    let retry = call[0] == 1 && call[1] == ACKNOWLEDGE;
    if attempt && matches!(number, 21 | 22 | 23 | 100) {
        seen.see_if(number == 100 && old.on() && words == 0, "hit");
        seen.see_if(number == 100 && words > 0, "miss, walked and found");
        seen.see_if(number == 100 && words == 1, "section found");
        seen.see_if(number == 100 && words == 2, "page of a table found");
        seen.see_if(number == 21 && words == 1, "fault at the first level");
        seen.see_if(number == 21 && words == 2, "fault at the second level");
        seen.see_if(number == 23 && words == 0, "permission fault on a match");
        seen.see_if(number == 23 && words > 0, "permission fault after a walk");
        seen.see_if(!old.on(), "attempt while off");
        seen.see_if(retry && number == 100, "retry got an address");
        seen.see_if(retry && number != 100, "retry got a fault");
        seen.see_if(retry && !old.on(), "retry while off");
        let came = number.wrapping_sub(21);
        seen.see_if(
            retry && number != 100 && old.pending().0 != 1 << came,
            "retry got another fault",
        );
        seen.see_if(number == 100 && value > 0x7FFF_FFFF, "address with bit 31");
        let meter = if retry { old.retries() } else { old.fresh() };
        seen.see_if(meter == u32::MAX, "attempt meter at its stop");
        seen.see_if(words > 0 && old.words() > u32::MAX - 2, "words meter at its stop");
        seen.see_if(old.misses() < 0.0, "smoothing from below zero");
        for role in 0..2 {
            seen.see_if(words > 0 && old.row(role) != new.row(role), "a row moved");
            seen.see_if(words > 0 && old.row(role) == u32::MAX, "no row before");
        }
    }
    if call[0] == 1 && call[1] == PREFETCH {
        seen.see_if(number == 0 && words == 0, "prefetch on a match");
        seen.see_if(number == 0 && words > 0, "prefetch filled");
        seen.see_if(number == 24, "prefetch fault");
    }
    if retry && number == 0 {
        seen.see_if(old.pending().0 == 8 && new.pending().0 == 0, "pending prefetch dropped");
        seen.see_if(call[8] & 1 == 0, "acknowledge with bit 0 clear");
    }
    if words > 0 && old.words() <= u32::MAX - 2 {
        if let Some(slot) = filled {
            seen.see_if(slot == 31, "fill of slot 31");
            seen.see_if(old.victim() < old.lock_base(), "fill with the victim below the base");
            seen.see_if(slot == 31 && new.victim() == old.lock_base(), "victim back to the base");
            let [_, low, _, _] = new.slot(slot);
            seen.see(format!("fill of type {}", low & 3));
        }
    }
    if call[0] == 1 && call[1] == GLOBAL_FLUSH && call[8] & 1 != 0 {
        let valid = |view: &View, slot| view.slot(slot)[1] & 4 != 0;
        let locked = usize::from(old.lock_base());
        for slot in slots.clone() {
            let kept = valid(&new, slot);
            seen.see_if(valid(&old, slot) && !kept && slot < locked, "locked slot flushed");
            seen.see_if(valid(&old, slot) && kept && slot >= locked, "unlocked slot preserved");
        }
    }
    if call[0] == 1 && call[1] == ENTRY_FLUSH && call[8] & 1 != 0 {
        let cleared = slots.filter(|&slot| old.slot(slot) != new.slot(slot)).count();
        seen.see_if(cleared == 1, "entry flush of one slot");
        seen.see_if(cleared > 1, "entry flush of more slots");
    }
    seen.see_if(call[0] == 1 && call[1] == CONTROL && call[8] & 1 == 0 && number == 0, "reset");
    seen.see_if(call[0] == 1 && call[1] == LOAD && call[8] & 3 == 1 && number == 0, "load");
    seen.see_if(call[0] == 1 && call[1] == LOAD && call[8] & 3 == 2 && number == 0, "copy");
    seen.see_if(number == 102 && value < 0, "distance below zero");
    seen.see_if(number == 102 && value > 0, "distance above zero");
    seen.see_if(number == 3 && old.pending().0 != 0 && retry, "retry refused 3");
}
