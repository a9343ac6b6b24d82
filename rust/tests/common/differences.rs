//! What `nx diff` says of two images, the whole page word by word, and what was seen on
//! such pages.

use super::coverage::Coverage;
use super::images::Image;
use super::lists::{Record, SIZES};
use super::nx::Ran;
use super::told::{checked, pages, why, ACCESS, KINDS};
use super::word;
use std::cmp::Ordering;
use std::collections::BTreeMap;

/// How the mappings that differ begin: an empty line, the title and the header.
pub const MAPPINGS_HEAD: &str = "\n\
The mappings that differ
  image   virtual          physical  page     access
";
/// What stands in their place where there are none.
pub const NO_MAPPINGS: &str = "  none: the words that differ map the same pages\n";
/// How the words that differ begin.
pub const WORDS_HEAD: &str = "\n\
The words that differ
  offset  words  image   word      megabyte  table   index  virtual          page
";

/// A new image and a signed one at the same base.
#[derive(Clone, Debug)]
pub struct Pair {
    pub new: Image,
    pub signed: Image,
}

/// Whose page a mapping that differs is: the signed image's, or the new one's.
pub const WHOSE: [&str; 2] = ["signed", "new"];

/// The pages that start at an address, the signed image's and the new one's.
pub type Mappings = [Option<Record>; 2];

/// Words one after another that differ in the same way.
#[derive(Clone, Copy, PartialEq, Eq, Debug)]
pub struct Run {
    pub offset: usize,
    pub count: usize,
    /// Their word in the new image and in the signed one.
    new: u32,
    signed: u32,
}

/// Where a word stands.
#[derive(Clone, Copy, PartialEq, Eq, Debug)]
enum Table {
    First,
    Coarse,
    Fine,
}

/// What a word of a table is for.
#[derive(Clone, Copy, Debug)]
struct Place {
    megabyte: u32,
    table: Table,
    index: u32,
    /// The virtual addresses, from the first one to the last.
    first: u32,
    last: u32,
}

/// What a word says where it stands: a table at a physical address, or a page.
#[derive(Clone, Copy, PartialEq, Eq, Debug)]
enum Says {
    Nothing,
    Coarse(u32),
    Fine(u32),
    Page { kind: usize, physical: u32, access: usize },
}

impl Table {
    fn name(self) -> &'static str {
        ["first", "coarse", "fine"][self as usize]
    }

    /// What the word says here.
    fn page(self, word: u32) -> Says {
        let page = |kind: usize, access_at: u32| Says::Page {
            kind,
            physical: word / SIZES[kind] * SIZES[kind],
            access: (word >> access_at) as usize % 4,
        };
        match (self, word % 4) {
            (Table::First, 1) => Says::Coarse(word / 1_024 * 1_024),
            (Table::First, 2) => page(0, 10),
            (Table::First, 3) => Says::Fine(word / 4_096 * 4_096),
            (_, 0) | (Table::Coarse, 3) => Says::Nothing,
            (_, kind) => page(kind as usize, 4),
        }
    }
}

impl Says {
    /// As it stands in the last column.
    fn text(self, base: u32) -> String {
        match self {
            Says::Nothing => "nothing".into(),
            Says::Coarse(at) => format!("coarse table at offset {:04X}", at - base),
            Says::Fine(at) => format!("fine table at offset {:04X}", at - base),
            Says::Page { kind, physical, access } => {
                format!("{} {physical:08X} {}", KINDS[kind], ACCESS[access])
            }
        }
    }
}

/// The places of every word of an accepted image, in the order in which they are said.
fn places(image: &Image) -> Vec<Vec<Place>> {
    let mut places = vec![Vec::new(); image.memory.len() / 4];
    for megabyte in 0..16 {
        let (first, last) = (megabyte << 20, (megabyte << 20) + 0xF_FFFF);
        let place = Place { megabyte, table: Table::First, index: megabyte, first, last };
        places[megabyte as usize].push(place);
    }
    for megabyte in 0..16 {
        let (table, at, count) = match Table::First.page(image.first(megabyte)) {
            Says::Coarse(at) => (Table::Coarse, at, 256),
            Says::Fine(at) => (Table::Fine, at, 1_024),
            _ => continue,
        };
        for index in 0..count {
            let size = (1 << 20) / count;
            let first = (megabyte << 20) + index * size;
            let place = Place { megabyte, table, index, first, last: first + (size - 1) };
            places[(at - image.base) as usize / 4 + index as usize].push(place);
        }
    }
    places
}

/// What is said of an image's words: nothing of their places where it is refused.
struct Side<'a> {
    image: &'a Image,
    places: Option<Vec<Vec<Place>>>,
}

impl Side<'_> {
    fn new(image: &Image) -> Side<'_> {
        Side { image, places: why(image).is_none().then(|| places(image)) }
    }

    fn past(&self, run: &Run) -> bool {
        run.offset >= self.image.memory.len()
    }

    /// The places of a run: of its first word, as far as those of its last.
    fn places(&self, run: &Run) -> Option<Vec<Place>> {
        let places = self.places.as_ref()?;
        let (head, end) = (&places[run.offset / 4], &places[run.offset / 4 + run.count - 1]);
        assert_eq!(head.len(), end.len(), "{run:?}");
        let both = head.iter().zip(end);
        let whole = |(head, end): (&Place, &Place)| {
            let less = run.count as u32 - 1;
            assert_eq!((head.table, head.index), (end.table, end.index - less), "{run:?}");
            Place { last: end.last, ..*head }
        };
        Some(both.map(whole).collect())
    }

    /// The lines of a run from the column of the word on.
    fn lines(&self, run: &Run, word: u32) -> Vec<String> {
        if self.past(run) {
            return vec!["-         past its end\n".into()];
        }
        let Some(places) = self.places(run) else {
            return vec![format!("{word:08X}\n")];
        };
        if places.is_empty() {
            return vec![format!("{word:08X}  in no table\n")];
        }
        let mut shown = format!("{word:08X}");
        let line = |place: Place| {
            let Place { megabyte, table, index, first, last } = place;
            let page = table.page(word).text(self.image.base);
            let (shown, table) = (std::mem::take(&mut shown), table.name());
            format!(
                "{shown:<10}{megabyte:<10X}{table:<8}{index:<7}{first:06X} - {last:06X}  {page}\n"
            )
        };
        places.into_iter().map(line).collect()
    }
}

/// A page's line among the mappings that differ.
pub fn mapping(whose: &str, page: &Record) -> String {
    let Record { virtual_start, physical, kind, access } = *page;
    let last = virtual_start + (page.size() - 1);
    let (kind, access) = (KINDS[kind as usize], ACCESS[access as usize]);
    format!("  {whose:<8}{virtual_start:06X} - {last:06X}  {physical:08X}  {kind:<9}{access}\n")
}

/// The refusal of a length, which is told before all else.
fn length_refused(length: usize) -> Option<String> {
    if length > 131_072 {
        Some("refused 4: the image has more than 131072 bytes".into())
    } else if !length.is_multiple_of(4) {
        Some(format!("refused 4: the image has {length} bytes, which is no multiple of 4"))
    } else {
        None
    }
}

impl Pair {
    pub fn new(base: u32, new: &[u8], signed: &[u8]) -> Pair {
        let image = |bytes: &[u8]| Image { base, memory: bytes.to_vec() };
        Pair { new: image(new), signed: image(signed) }
    }

    /// The signed image as the new one.
    pub fn turned(&self) -> Pair {
        Pair { new: self.signed.clone(), signed: self.new.clone() }
    }

    fn lengths(&self) -> [usize; 2] {
        [self.new.memory.len(), self.signed.memory.len()]
    }

    /// The mappings that differ, in rising order of the addresses where they start, of
    /// images that the check accepts both.
    pub fn mappings(&self) -> Option<Vec<Mappings>> {
        let mut starts: BTreeMap<u32, Mappings> = BTreeMap::new();
        for (whose, image) in [&self.signed, &self.new].into_iter().enumerate() {
            for page in pages(image).ok()? {
                let own = &mut starts.entry(page.virtual_start).or_default()[whose];
                assert_eq!(own.replace(page), None, "two pages start at one address");
            }
        }
        Some(starts.into_values().filter(|[signed, new]| signed != new).collect())
    }

    /// The runs of words that differ, of images whose lengths are not refused.
    pub fn runs(&self) -> Vec<Run> {
        let lengths = self.lengths();
        let at = |image: &Image, offset: usize| match image.memory.get(offset..offset + 4) {
            Some(bytes) => word(bytes, 0),
            None => 0,
        };
        let mut runs: Vec<Run> = Vec::new();
        for offset in (0..lengths[0].max(lengths[1])).step_by(4) {
            let [new, signed] = [&self.new, &self.signed].map(|image| at(image, offset));
            if new == signed {
                continue;
            }
            let cut = self.cuts(offset).contains(&true);
            match runs.last_mut() {
                Some(run) if !cut && run.goes_on(offset, new, signed) => run.count += 1,
                _ => runs.push(Run { offset, count: 1, new, signed }),
            }
        }
        runs
    }

    /// Whether a run is cut here: where a table may begin, after the first level, at the
    /// end of the new image and of the signed one.
    fn cuts(&self, offset: usize) -> [bool; 4] {
        let table = (self.new.base as usize + offset).is_multiple_of(1_024);
        let [new, signed] = self.lengths();
        [table, offset == 64, offset == new, offset == signed]
    }

    /// All that `nx diff` gives for the two under these names.
    pub fn definition(&self, new_name: &str, signed_name: &str) -> Ran {
        assert_eq!(self.new.base, self.signed.base);
        let (new, signed) = (&self.new.memory, &self.signed.memory);
        let named = [(new_name, new), (signed_name, signed)];
        let refusals = named.map(|(name, image)| {
            let why = length_refused(image.len());
            why.map_or(String::new(), |why| format!("{name}: {why}\n"))
        });
        if refusals.iter().any(|line| !line.is_empty()) {
            return Ran::told("1", refusals.concat());
        }
        if new == signed {
            let said = format!("{new_name} and {signed_name}: equal, {} bytes\n", new.len());
            return Ran::told("0", said);
        }

        let common = new.len().min(signed.len());
        let differ: Vec<usize> =
            (0..common).step_by(4).filter(|&at| word(new, at) != word(signed, at)).collect();
        let parts = differ.first().copied().unwrap_or(common);
        let mut page = format!("{new_name} parts from {signed_name} at offset {parts:04X}\n");
        page += &format!("  words that differ: {} of {}\n", differ.len(), common / 4);
        for (name, image) in named {
            if image.len() > common {
                let more = image.len() - common;
                page += &format!("  {name} has {more} bytes more, from offset {common:04X} on\n");
            }
        }
        page += &checked(&self.new, new_name).1;
        page += &checked(&self.signed, signed_name).1;
        if let Some(differ) = self.mappings() {
            page += MAPPINGS_HEAD;
            for (whose, own) in differ.iter().flat_map(|both| WHOSE.iter().zip(both)) {
                page += &own.map_or(String::new(), |own| mapping(whose, &own));
            }
            page += if differ.is_empty() { NO_MAPPINGS } else { "" };
        }
        page += WORDS_HEAD;
        let sides = [("signed", Side::new(&self.signed)), ("new", Side::new(&self.new))];
        for run in self.runs() {
            let mut head = format!("  {:<8}{:<7}", format!("{:04X}", run.offset), run.count);
            for ((name, side), word) in sides.iter().zip([run.signed, run.new]) {
                let mut name = *name;
                for line in side.lines(&run, word) {
                    page += &format!("{head:<17}{name:<8}{line}");
                    (head, name) = (String::new(), "");
                }
            }
        }
        Ran::told("1", page)
    }
}

impl Run {
    fn goes_on(&self, offset: usize, new: u32, signed: u32) -> bool {
        self.offset + 4 * self.count == offset && (self.new, self.signed) == (new, signed)
    }
}

/// How two images that differ are, by their lengths and by what the check says of them.
pub const LENGTHS: [&str; 3] = ["as long", "new longer", "signed longer"];
pub const REFUSED: [&str; 4] =
    ["both accepted", "new refused by the check", "signed refused by the check", "both refused"];
/// Lengths that are refused.
pub const LENGTHS_REFUSED: [&str; 3] =
    ["length of the new refused", "length of the signed refused", "both lengths refused"];
/// What there is among the mappings that differ, and without such a section.
pub const MAPPINGS: [&str; 5] = [
    "both have another page at one address",
    "a page of the signed one alone",
    "a page of the new one alone",
    "no page differs",
    "no mappings, as one image is refused",
];
/// How the pages differ that start at one address, where that is in one way.
pub const OTHERS: [&str; 3] = ["another physical base", "another kind", "another access"];
/// Where a row of words that differ in the same way is cut.
pub const CUTS: [&str; 4] = [
    "cut where a table may begin",
    "cut after the first level",
    "cut at the new one's end",
    "cut at the signed one's end",
];
/// Words with more places than one.
pub const PLACES: [&str; 3] =
    ["in two tables", "in the first level and a table", "in a coarse and a fine table"];
/// What is said of a word that is no page of a table.
pub const NO_PAGES: [&str; 6] = [
    "first nothing",
    "first coarse table",
    "first fine table",
    "coarse nothing",
    "coarse nothing, tiny",
    "fine nothing",
];

/// Every page of every table, with every access.
pub fn all_pages() -> Vec<String> {
    let coarse = ["coarse large", "coarse small"];
    let sorts = [&["first section"][..], &coarse, &["fine large", "fine small", "fine tiny"]];
    let each = |sort| ACCESS.map(|access| format!("{sort} {access}"));
    sorts.concat().into_iter().flat_map(each).collect()
}

/// Every kind of page with every access, of either image among the mappings that differ.
pub fn all_mappings() -> Vec<String> {
    let each = |whose, kind| ACCESS.map(|access| format!("{whose} mapping, {kind} {access}"));
    WHOSE.iter().flat_map(|whose| KINDS.iter().flat_map(move |kind| each(whose, kind))).collect()
}

/// How a word is said of either image where no place is.
pub fn no_places() -> Vec<String> {
    let each = |whose| ["past its end", "alone", "in no table"].map(|how| format!("{whose} {how}"));
    ["new", "signed"].into_iter().flat_map(each).collect()
}

impl Pair {
    /// Counts by name what is on the page.
    pub fn see(&self, seen: &mut Coverage) {
        let [new, signed] = self.lengths();
        let refused = [new, signed].map(|length| length_refused(length).is_some());
        match refused {
            [false, false] => {}
            [true, false] => return seen.see(LENGTHS_REFUSED[0]),
            [false, true] => return seen.see(LENGTHS_REFUSED[1]),
            [true, true] => return seen.see(LENGTHS_REFUSED[2]),
        }
        if self.new.memory == self.signed.memory {
            return seen.see("equal");
        }
        seen.see(match new.cmp(&signed) {
            Ordering::Equal => LENGTHS[0],
            Ordering::Greater => LENGTHS[1],
            Ordering::Less => LENGTHS[2],
        });
        let common = new.min(signed);
        let agrees = self.new.memory[..common] == self.signed.memory[..common];
        seen.see_if(agrees, "agrees as far as it goes");
        seen.see_if(common < 64, "no room for the first level");
        let sides = [("new", Side::new(&self.new)), ("signed", Side::new(&self.signed))];
        let refused = [0, 1].map(|side| usize::from(sides[side].1.places.is_none()));
        seen.see(REFUSED[refused[0] + 2 * refused[1]]);
        match self.mappings() {
            Some(differ) => see_mappings(seen, &differ),
            None => seen.see_if(refused[0] != refused[1], MAPPINGS[4]),
        }

        let runs = self.runs();
        seen.see_if(runs.is_empty(), "no word shown");
        for run in &runs {
            seen.see_if(run.count == 1, "a word");
            seen.see_if(run.count > 1, "some words");
            seen.see_if(run.count == 256, "256 words");
            for ((whose, side), word) in sides.iter().zip([run.new, run.signed]) {
                side.see(seen, run, whose, word);
            }
        }
        for two in runs.windows(2) {
            let [before, after] = [two[0], two[1]];
            if before.goes_on(after.offset, after.new, after.signed) {
                let cuts = self.cuts(after.offset);
                for (name, _) in CUTS.iter().zip(cuts).filter(|(_, cut)| *cut) {
                    seen.see(name);
                }
                let odd = cuts[0] && after.offset % 1_024 != 0;
                seen.see_if(odd, "cut at a base between two tables");
            }
        }
    }
}

/// The same of the mappings that differ.
fn see_mappings(seen: &mut Coverage, differ: &[Mappings]) {
    seen.see_if(differ.is_empty(), MAPPINGS[3]);
    for both in differ {
        match both {
            [Some(signed), Some(new)] => {
                seen.see(MAPPINGS[0]);
                let others = [
                    signed.physical != new.physical,
                    signed.kind != new.kind,
                    signed.access != new.access,
                ];
                if others.iter().filter(|&&other| other).count() == 1 {
                    let way = others.iter().position(|&other| other).expect("one");
                    seen.see(OTHERS[way]);
                }
            }
            [Some(_), None] => seen.see(MAPPINGS[1]),
            _ => seen.see(MAPPINGS[2]),
        }
        for (whose, own) in WHOSE.iter().zip(both) {
            if let Some(Record { kind, access, .. }) = *own {
                let (kind, access) = (KINDS[kind as usize], ACCESS[access as usize]);
                seen.see(format!("{whose} mapping, {kind} {access}"));
            }
        }
    }
}

impl Side<'_> {
    /// The same of a run in one image.
    fn see(&self, seen: &mut Coverage, run: &Run, whose: &str, word: u32) {
        if self.past(run) {
            return seen.see(format!("{whose} past its end"));
        }
        let Some(places) = self.places(run) else {
            return seen.see(format!("{whose} alone"));
        };
        if places.is_empty() {
            return seen.see(format!("{whose} in no table"));
        }
        let is = |table: Table| places.iter().any(|place| place.table == table);
        let tables = places.iter().filter(|place| place.table != Table::First).count();
        seen.see_if(tables > 1, PLACES[0]);
        seen.see_if(is(Table::First) && tables > 0, PLACES[1]);
        seen.see_if(is(Table::Coarse) && is(Table::Fine), PLACES[2]);
        for place in places {
            let table = place.table.name();
            seen.see(match place.table.page(word) {
                Says::Nothing if word % 4 == 3 => format!("{table} nothing, tiny"),
                Says::Nothing => format!("{table} nothing"),
                Says::Coarse(_) => format!("{table} coarse table"),
                Says::Fine(_) => format!("{table} fine table"),
                Says::Page { kind, access, .. } => {
                    format!("{table} {} {}", KINDS[kind], ACCESS[access])
                }
            });
        }
    }
}
