//! The built program `crates/nx/out/nx` on two images: `nx diff` says where a new image of
//! address tables parts from the signed one, which pages of either the other has not, and
//! what each word that differs maps in either.
//!
//! NX_LONG, NX_SEED and NX_WITHOUT_NATIVE are as for `nx.rs`.

mod common;

use common::coverage::Coverage;
use common::differences::{self, mapping, Pair, MAPPINGS_HEAD, NO_MAPPINGS, WORDS_HEAD};
use common::images::{Image, Words};
use common::lists::{self, Record, SIZES};
use common::nx::{folder, root, run, Ran};
use common::partings::{changed, names, some_words};
use common::rows::BASE;
use common::told::{ACCESS, KINDS};
use common::worlds::descriptor;
use common::written::{self, COARSE, FINE};
use common::{long, put_word, seed, turn, word};
use second::boundary::Second;
use second::builder::MOST_RECORDS;
use second::dice::Dice;
use std::fmt::Display;
use std::fs;
use std::path::PathBuf;
use std::process::Command;

// ---------------------------------------------------------------------------
// Two images under nx

/// Where nx is, a folder for the images, and what was seen.
struct Bench {
    root: PathBuf,
    folder: PathBuf,
    seen: Coverage,
}

/// Fails where a run gave something else than this, with the first line that is another.
fn same(got: &Ran, said: &Ran, title: impl Display) {
    if got == said {
        return;
    }
    let [of_got, of_said] = [got, said].map(|ran| String::from_utf8_lossy(&ran.out).into_owned());
    let (mut of_got, mut of_said) = (of_got.split_inclusive('\n'), of_said.split_inclusive('\n'));
    let mut number = 1;
    let (one, other) = loop {
        match (of_got.next(), of_said.next()) {
            (Some(one), Some(other)) if one == other => number += 1,
            lines => break lines,
        }
    };
    panic!(
        "{title}: digit {} and error {:?}, to be {} and {:?}\n\
         line {number}: {one:?}\nto be: {other:?}",
        got.digit, got.error, said.digit, said.error
    );
}

impl Bench {
    fn new(name: &str) -> Option<Bench> {
        Some(Bench { root: root()?, folder: folder(name), seen: Coverage::default() })
    }

    fn path(&self, name: &str) -> String {
        self.folder.join(name).display().to_string()
    }

    /// A file with these bytes.
    fn file(&self, name: &str, bytes: &[u8]) -> String {
        let path = self.path(name);
        fs::write(&path, bytes).expect("a file");
        path
    }

    fn diff(&self, words: &[&str], input: &[u8]) -> Ran {
        run(&self.root, &[&["diff"], words].concat(), input)
    }

    /// The image that `nx build` makes of a list as text.
    fn built(&self, list: &str, base: &str) -> Vec<u8> {
        let path = self.path("built.image");
        let built = run(&self.root, &["build", "-", &path, base], list.as_bytes());
        assert_eq!((built.digit.as_str(), built.error.as_str()), ("0", ""), "{list}");
        fs::read(path).expect("an image")
    }

    /// The example's text and image.
    fn the_box(&self) -> (String, Vec<u8>) {
        let list = fs::read_to_string(self.root.join("examples/box.list")).expect("the example");
        let image = self.built(&list, "20000000");
        assert_eq!(image.len(), 0x2000);
        (list, image)
    }

    /// Two images that differ or are refused, and all that is said of them, where NEW and
    /// SIGNED stand for their names; the base is a word, or none.
    fn expect(&self, new: &[u8], signed: &[u8], base: &[&str], said: &str) {
        let value = match base {
            [] => BASE,
            words => u32::from_str_radix(words[0].trim_start_matches("0x"), 16).expect("hex"),
        };
        let [one, other] = [self.file("new.image", new), self.file("signed.image", signed)];
        let said = Ran::told("1", said.replace("NEW", &one).replace("SIGNED", &other));
        same(&Pair::new(value, new, signed).definition(&one, &other), &said, "the definition");
        let words = [&[one.as_str(), other.as_str()], base].concat();
        same(&self.diff(&words, b""), &said, format_args!("nx diff {words:?}"));
    }

    /// The same of images written by hand at 20000000 hex.
    fn expect_written(&self, length: usize, new: &[Words], signed: &[Words], said: &str) {
        let [new, signed] = [new, signed].map(|words| Image::written(BASE, length, words).memory);
        self.expect(&new, &signed, &[], said);
    }

    /// Two images as the definition has it, one of them standard input or none. Gives the
    /// page.
    fn agree(&mut self, dice: &mut Dice, pair: &Pair, title: impl Display) -> String {
        let images = [&pair.new.memory, &pair.signed.memory];
        let mut words = vec![self.file("new.image", images[0])];
        words.push(self.file("signed.image", images[1]));
        let mut names = words.clone();
        let mut input = &[][..];
        let dash = dice.below(3) as usize;
        if dash < 2 {
            words[dash] = "-".into();
            names[dash] = "standard input".into();
            input = images[dash];
        }
        let base = pair.new.base;
        match dice.below(4) {
            0 => words.push(format!("0x{base:x}")),
            1 => words.push(format!("{base:010x}")),
            2 if base == BASE => {}
            _ => words.push(format!("{base:X}")),
        }
        let words: Vec<&str> = words.iter().map(String::as_str).collect();
        let said = pair.definition(&names[0], &names[1]);
        same(&self.diff(&words, input), &said, format_args!("{title}, {words:?}"));
        pair.see(&mut self.seen);
        String::from_utf8(said.out).expect("text")
    }
}

// ---------------------------------------------------------------------------
// Images of which it is said here what comes of them, letter by letter

/// A list with other words in the place of these, which stand there once.
fn replaced(list: &str, words: &str, by: &str) -> String {
    assert_eq!(list.matches(words).count(), 1, "{words}");
    list.replace(words, by)
}

/// A list without the lines that begin so.
fn without(list: &str, start: &str) -> String {
    list.split_inclusive('\n').filter(|line| !line.starts_with(start)).collect()
}

/// The example, and the same list with one mapping changed or some taken out.
#[test]
fn the_box_and_a_mapping() {
    let _turn = turn();
    let Some(bench) = Bench::new("diff_box") else { return };
    let (list, signed) = bench.the_box();
    let new = |list: String| bench.built(&list, "20000000");
    // Its physical address.
    bench.expect(
        &new(replaced(&list, "610000 12410000", "610000 12420000")),
        &signed,
        &[],
        "\
NEW parts from SIGNED at offset 0840
  words that differ: 16 of 2048
NEW: accepted, 14 pages, 8192 bytes at 20000000
SIGNED: accepted, 14 pages, 8192 bytes at 20000000

The mappings that differ
  image   virtual          physical  page     access
  signed  610000 - 61FFFF  12410000  large    rw
  new     610000 - 61FFFF  12420000  large    rw

The words that differ
  offset  words  image   word      megabyte  table   index  virtual          page
  0840    16     signed  12410031  6         coarse  16     610000 - 61FFFF  large 12410000 rw
                 new     12420031  6         coarse  16     610000 - 61FFFF  large 12420000 rw
",
    );
    // Its access.
    bench.expect(
        &new(replaced(&list, "11000000 r ", "11000000 rw ")),
        &signed,
        &["20000000"],
        "\
NEW parts from SIGNED at offset 0000
  words that differ: 1 of 2048
NEW: accepted, 14 pages, 8192 bytes at 20000000
SIGNED: accepted, 14 pages, 8192 bytes at 20000000

The mappings that differ
  image   virtual          physical  page     access
  signed  000000 - 0FFFFF  11000000  section  r
  new     000000 - 0FFFFF  11000000  section  rw

The words that differ
  offset  words  image   word      megabyte  table   index  virtual          page
  0000    1      signed  11000802  0         first   0      000000 - 0FFFFF  section 11000000 r
                 new     11000C02  0         first   0      000000 - 0FFFFF  section 11000000 rw
",
    );
    bench.expect(
        &signed,
        &new(replaced(&list, "0000F000 r ", "0000F000 rw ")),
        &["0x20000000"],
        "\
NEW parts from SIGNED at offset 1004
  words that differ: 1 of 2048
NEW: accepted, 14 pages, 8192 bytes at 20000000
SIGNED: accepted, 14 pages, 8192 bytes at 20000000

The mappings that differ
  image   virtual          physical  page     access
  signed  F00400 - F007FF  0000F000  tiny     rw
  new     F00400 - F007FF  0000F000  tiny     r

The words that differ
  offset  words  image   word      megabyte  table   index  virtual          page
  1004    1      signed  0000F033  F         fine    1      F00400 - F007FF  tiny 0000F000 rw
                 new     0000F023  F         fine    1      F00400 - F007FF  tiny 0000F000 r
",
    );
    // Without it.
    bench.expect(
        &new(without(&list, "small   F80000")),
        &signed,
        &[],
        "\
NEW parts from SIGNED at offset 1800
  words that differ: 4 of 2048
NEW: accepted, 13 pages, 8192 bytes at 20000000
SIGNED: accepted, 14 pages, 8192 bytes at 20000000

The mappings that differ
  image   virtual          physical  page     access
  signed  F80000 - F80FFF  0000E000  small    r

The words that differ
  offset  words  image   word      megabyte  table   index  virtual          page
  1800    4      signed  0000E022  F         fine    512    F80000 - F80FFF  small 0000E000 r
                 new     00000000  F         fine    512    F80000 - F80FFF  nothing
",
    );
    // Without a megabyte, and so without its table.
    let shorter = new(without(&without(&list, "small   F80000"), "tiny"));
    bench.expect(
        &shorter,
        &signed,
        &[],
        "\
NEW parts from SIGNED at offset 003C
  words that differ: 1 of 1024
  SIGNED has 4096 bytes more, from offset 1000 on
NEW: accepted, 11 pages, 4096 bytes at 20000000
SIGNED: accepted, 14 pages, 8192 bytes at 20000000

The mappings that differ
  image   virtual          physical  page     access
  signed  F00000 - F003FF  0000F000  tiny     rw
  signed  F00400 - F007FF  0000F000  tiny     r
  signed  F80000 - F80FFF  0000E000  small    r

The words that differ
  offset  words  image   word      megabyte  table   index  virtual          page
  003C    1      signed  20001003  F         first   15     F00000 - FFFFFF  \
fine table at offset 1000
                 new     00000000  F         first   15     F00000 - FFFFFF  nothing
  1000    1      signed  0000F033  F         fine    0      F00000 - F003FF  tiny 0000F000 rw
                 new     -         past its end
  1004    1      signed  0000F023  F         fine    1      F00400 - F007FF  tiny 0000F000 r
                 new     -         past its end
  1800    4      signed  0000E022  F         fine    512    F80000 - F80FFF  small 0000E000 r
                 new     -         past its end
",
    );
    bench.expect(
        &signed,
        &shorter,
        &[],
        "\
NEW parts from SIGNED at offset 003C
  words that differ: 1 of 1024
  NEW has 4096 bytes more, from offset 1000 on
NEW: accepted, 14 pages, 8192 bytes at 20000000
SIGNED: accepted, 11 pages, 4096 bytes at 20000000

The mappings that differ
  image   virtual          physical  page     access
  new     F00000 - F003FF  0000F000  tiny     rw
  new     F00400 - F007FF  0000F000  tiny     r
  new     F80000 - F80FFF  0000E000  small    r

The words that differ
  offset  words  image   word      megabyte  table   index  virtual          page
  003C    1      signed  00000000  F         first   15     F00000 - FFFFFF  nothing
                 new     20001003  F         first   15     F00000 - FFFFFF  \
fine table at offset 1000
  1000    1      signed  -         past its end
                 new     0000F033  F         fine    0      F00000 - F003FF  tiny 0000F000 rw
  1004    1      signed  -         past its end
                 new     0000F023  F         fine    1      F00400 - F007FF  tiny 0000F000 r
  1800    4      signed  -         past its end
                 new     0000E022  F         fine    512    F80000 - F80FFF  small 0000E000 r
",
    );
}

/// A section of the example, replaced by two large pages: the tables behind theirs move.
#[test]
fn a_section_replaced_by_tables() {
    let _turn = turn();
    let Some(bench) = Bench::new("diff_tables") else { return };
    let (list, signed) = bench.the_box();
    let pages = "large 500000 12100000 rw\nlarge 510000 12110000 rw #";
    let new = bench.built(&replaced(&list, "section 500000 12100000 rw", pages), "20000000");
    bench.expect(
        &new,
        &signed,
        &[],
        "\
NEW parts from SIGNED at offset 0014
  words that differ: 89 of 2048
  NEW has 4096 bytes more, from offset 2000 on
NEW: accepted, 15 pages, 12288 bytes at 20000000
SIGNED: accepted, 14 pages, 8192 bytes at 20000000

The mappings that differ
  image   virtual          physical  page     access
  signed  500000 - 5FFFFF  12100000  section  rw
  new     500000 - 50FFFF  12100000  large    rw
  new     510000 - 51FFFF  12110000  large    rw

The words that differ
  offset  words  image   word      megabyte  table   index  virtual          page
  0014    1      signed  12100C02  5         first   5      500000 - 5FFFFF  section 12100000 rw
                 new     20000801  5         first   5      500000 - 5FFFFF  \
coarse table at offset 0800
  0018    1      signed  20000801  6         first   6      600000 - 6FFFFF  \
coarse table at offset 0800
                 new     20000C01  6         first   6      600000 - 6FFFFF  \
coarse table at offset 0C00
  001C    1      signed  20000C01  7         first   7      700000 - 7FFFFF  \
coarse table at offset 0C00
                 new     20001001  7         first   7      700000 - 7FFFFF  \
coarse table at offset 1000
  003C    1      signed  20001003  F         first   15     F00000 - FFFFFF  \
fine table at offset 1000
                 new     20002003  F         first   15     F00000 - FFFFFF  \
fine table at offset 2000
  0800    16     signed  12400031  6         coarse  0      600000 - 60FFFF  large 12400000 rw
                 new     12100031  5         coarse  0      500000 - 50FFFF  large 12100000 rw
  0840    16     signed  12410031  6         coarse  16     610000 - 61FFFF  large 12410000 rw
                 new     12110031  5         coarse  16     510000 - 51FFFF  large 12110000 rw
  0C00    16     signed  12500031  7         coarse  0      700000 - 70FFFF  large 12500000 rw
                 new     12400031  6         coarse  0      600000 - 60FFFF  large 12400000 rw
  0C40    1      signed  12510032  7         coarse  16     710000 - 710FFF  small 12510000 rw
                 new     12410031  6         coarse  16     610000 - 610FFF  large 12410000 rw
  0C44    15     signed  00000000  7         coarse  17     711000 - 71FFFF  nothing
                 new     12410031  6         coarse  17     611000 - 61FFFF  large 12410000 rw
  1000    1      signed  0000F033  F         fine    0      F00000 - F003FF  tiny 0000F000 rw
                 new     12500031  7         coarse  0      700000 - 700FFF  large 12500000 rw
  1004    1      signed  0000F023  F         fine    1      F00400 - F007FF  tiny 0000F000 r
                 new     12500031  7         coarse  1      701000 - 701FFF  large 12500000 rw
  1008    14     signed  00000000  F         fine    2      F00800 - F03FFF  nothing
                 new     12500031  7         coarse  2      702000 - 70FFFF  large 12500000 rw
  1040    1      signed  00000000  F         fine    16     F04000 - F043FF  nothing
                 new     12510032  7         coarse  16     710000 - 710FFF  small 12510000 rw
  1800    4      signed  0000E022  F         fine    512    F80000 - F80FFF  small 0000E000 r
                 new     00000000  in no table
  2000    1      signed  -         past its end
                 new     0000F033  F         fine    0      F00000 - F003FF  tiny 0000F000 rw
  2004    1      signed  -         past its end
                 new     0000F023  F         fine    1      F00400 - F007FF  tiny 0000F000 r
  2800    4      signed  -         past its end
                 new     0000E022  F         fine    512    F80000 - F80FFF  small 0000E000 r
",
    );
}

/// A mapping of the example's more, in a megabyte that had none: the tables behind its own
/// move, and nothing else is mapped otherwise.
#[test]
fn a_mapping_added() {
    let _turn = turn();
    let Some(bench) = Bench::new("diff_added") else { return };
    let (list, signed) = bench.the_box();
    bench.expect(
        &bench.built(&(list + "small 3FF000 00007000 rw\n"), "20000000"),
        &signed,
        &[],
        "\
NEW parts from SIGNED at offset 000C
  words that differ: 90 of 2048
  NEW has 4096 bytes more, from offset 2000 on
NEW: accepted, 15 pages, 12288 bytes at 20000000
SIGNED: accepted, 14 pages, 8192 bytes at 20000000

The mappings that differ
  image   virtual          physical  page     access
  new     3FF000 - 3FFFFF  00007000  small    rw

The words that differ
  offset  words  image   word      megabyte  table   index  virtual          page
  000C    1      signed  00000000  3         first   3      300000 - 3FFFFF  nothing
                 new     20000801  3         first   3      300000 - 3FFFFF  \
coarse table at offset 0800
  0018    1      signed  20000801  6         first   6      600000 - 6FFFFF  \
coarse table at offset 0800
                 new     20000C01  6         first   6      600000 - 6FFFFF  \
coarse table at offset 0C00
  001C    1      signed  20000C01  7         first   7      700000 - 7FFFFF  \
coarse table at offset 0C00
                 new     20001001  7         first   7      700000 - 7FFFFF  \
coarse table at offset 1000
  003C    1      signed  20001003  F         first   15     F00000 - FFFFFF  \
fine table at offset 1000
                 new     20002003  F         first   15     F00000 - FFFFFF  \
fine table at offset 2000
  0800    16     signed  12400031  6         coarse  0      600000 - 60FFFF  large 12400000 rw
                 new     00000000  3         coarse  0      300000 - 30FFFF  nothing
  0840    16     signed  12410031  6         coarse  16     610000 - 61FFFF  large 12410000 rw
                 new     00000000  3         coarse  16     310000 - 31FFFF  nothing
  0BFC    1      signed  00000000  6         coarse  255    6FF000 - 6FFFFF  nothing
                 new     00007032  3         coarse  255    3FF000 - 3FFFFF  small 00007000 rw
  0C00    16     signed  12500031  7         coarse  0      700000 - 70FFFF  large 12500000 rw
                 new     12400031  6         coarse  0      600000 - 60FFFF  large 12400000 rw
  0C40    1      signed  12510032  7         coarse  16     710000 - 710FFF  small 12510000 rw
                 new     12410031  6         coarse  16     610000 - 610FFF  large 12410000 rw
  0C44    15     signed  00000000  7         coarse  17     711000 - 71FFFF  nothing
                 new     12410031  6         coarse  17     611000 - 61FFFF  large 12410000 rw
  1000    1      signed  0000F033  F         fine    0      F00000 - F003FF  tiny 0000F000 rw
                 new     12500031  7         coarse  0      700000 - 700FFF  large 12500000 rw
  1004    1      signed  0000F023  F         fine    1      F00400 - F007FF  tiny 0000F000 r
                 new     12500031  7         coarse  1      701000 - 701FFF  large 12500000 rw
  1008    14     signed  00000000  F         fine    2      F00800 - F03FFF  nothing
                 new     12500031  7         coarse  2      702000 - 70FFFF  large 12500000 rw
  1040    1      signed  00000000  F         fine    16     F04000 - F043FF  nothing
                 new     12510032  7         coarse  16     710000 - 710FFF  small 12510000 rw
  1800    4      signed  0000E022  F         fine    512    F80000 - F80FFF  small 0000E000 r
                 new     00000000  in no table
  2000    1      signed  -         past its end
                 new     0000F033  F         fine    0      F00000 - F003FF  tiny 0000F000 rw
  2004    1      signed  -         past its end
                 new     0000F023  F         fine    1      F00400 - F007FF  tiny 0000F000 r
  2800    4      signed  -         past its end
                 new     0000E022  F         fine    512    F80000 - F80FFF  small 0000E000 r
",
    );
}

/// A large page of the example, replaced by small ones that do not fill it, and the reverse.
#[test]
fn a_large_page_replaced_by_small_ones() {
    let _turn = turn();
    let Some(bench) = Bench::new("diff_small") else { return };
    let (list, large) = bench.the_box();
    let pages = "small 700000 12500000 rw\nsmall 70F000 1250F000 rw\nsmall 701000 12501000 r #";
    let small = bench.built(&replaced(&list, "large   700000 12500000 rw", pages), "20000000");
    bench.expect(
        &small,
        &large,
        &[],
        "\
NEW parts from SIGNED at offset 0C00
  words that differ: 16 of 2048
NEW: accepted, 16 pages, 8192 bytes at 20000000
SIGNED: accepted, 14 pages, 8192 bytes at 20000000

The mappings that differ
  image   virtual          physical  page     access
  signed  700000 - 70FFFF  12500000  large    rw
  new     700000 - 700FFF  12500000  small    rw
  new     701000 - 701FFF  12501000  small    r
  new     70F000 - 70FFFF  1250F000  small    rw

The words that differ
  offset  words  image   word      megabyte  table   index  virtual          page
  0C00    1      signed  12500031  7         coarse  0      700000 - 700FFF  large 12500000 rw
                 new     12500032  7         coarse  0      700000 - 700FFF  small 12500000 rw
  0C04    1      signed  12500031  7         coarse  1      701000 - 701FFF  large 12500000 rw
                 new     12501022  7         coarse  1      701000 - 701FFF  small 12501000 r
  0C08    13     signed  12500031  7         coarse  2      702000 - 70EFFF  large 12500000 rw
                 new     00000000  7         coarse  2      702000 - 70EFFF  nothing
  0C3C    1      signed  12500031  7         coarse  15     70F000 - 70FFFF  large 12500000 rw
                 new     1250F032  7         coarse  15     70F000 - 70FFFF  small 1250F000 rw
",
    );
    // Of two pages at one address the signed image's comes first.
    bench.expect(
        &large,
        &small,
        &[],
        "\
NEW parts from SIGNED at offset 0C00
  words that differ: 16 of 2048
NEW: accepted, 14 pages, 8192 bytes at 20000000
SIGNED: accepted, 16 pages, 8192 bytes at 20000000

The mappings that differ
  image   virtual          physical  page     access
  signed  700000 - 700FFF  12500000  small    rw
  new     700000 - 70FFFF  12500000  large    rw
  signed  701000 - 701FFF  12501000  small    r
  signed  70F000 - 70FFFF  1250F000  small    rw

The words that differ
  offset  words  image   word      megabyte  table   index  virtual          page
  0C00    1      signed  12500032  7         coarse  0      700000 - 700FFF  small 12500000 rw
                 new     12500031  7         coarse  0      700000 - 700FFF  large 12500000 rw
  0C04    1      signed  12501022  7         coarse  1      701000 - 701FFF  small 12501000 r
                 new     12500031  7         coarse  1      701000 - 701FFF  large 12500000 rw
  0C08    13     signed  00000000  7         coarse  2      702000 - 70EFFF  nothing
                 new     12500031  7         coarse  2      702000 - 70EFFF  large 12500000 rw
  0C3C    1      signed  1250F032  7         coarse  15     70F000 - 70FFFF  small 1250F000 rw
                 new     12500031  7         coarse  15     70F000 - 70FFFF  large 12500000 rw
",
    );
}

/// Words that differ and map the same pages: in bits that are ignored, and in the place of
/// a table.
#[test]
fn the_same_pages() {
    let _turn = turn();
    let Some(bench) = Bench::new("diff_same") else { return };
    bench.expect_written(
        0x2000,
        &[
            (0, 1, COARSE | 0x3FC),
            (12, 1, 0x112F_FBFE),
            (20, 1, FINE | 0xFFC),
            (0x440, 16, 0x1002_FFFD),
            (0x1004, 1, 0x1000_0FFF),
        ],
        &[
            (0, 1, COARSE),
            (12, 1, 0x1120_0802),
            (20, 1, FINE),
            (0x440, 16, 0x1002_0031),
            (0x1004, 1, 0x1000_0C33),
        ],
        "\
NEW parts from SIGNED at offset 0000
  words that differ: 20 of 2048
NEW: accepted, 3 pages, 8192 bytes at 20000000
SIGNED: accepted, 3 pages, 8192 bytes at 20000000

The mappings that differ
  image   virtual          physical  page     access
  none: the words that differ map the same pages

The words that differ
  offset  words  image   word      megabyte  table   index  virtual          page
  0000    1      signed  20000401  0         first   0      000000 - 0FFFFF  \
coarse table at offset 0400
                 new     200007FD  0         first   0      000000 - 0FFFFF  \
coarse table at offset 0400
  000C    1      signed  11200802  3         first   3      300000 - 3FFFFF  section 11200000 r
                 new     112FFBFE  3         first   3      300000 - 3FFFFF  section 11200000 r
  0014    1      signed  20001003  5         first   5      500000 - 5FFFFF  \
fine table at offset 1000
                 new     20001FFF  5         first   5      500000 - 5FFFFF  \
fine table at offset 1000
  0440    16     signed  10020031  0         coarse  16     010000 - 01FFFF  large 10020000 rw
                 new     1002FFFD  0         coarse  16     010000 - 01FFFF  large 10020000 rw
  1004    1      signed  10000C33  5         fine    1      500400 - 5007FF  tiny 10000C00 rw
                 new     10000FFF  5         fine    1      500400 - 5007FF  tiny 10000C00 rw
",
    );
    bench.expect_written(
        0xC00,
        &[(4, 1, BASE + 0x801), (0x800, 1, 0x1234_5032)],
        &[(4, 1, COARSE), (0x400, 1, 0x1234_5032)],
        "\
NEW parts from SIGNED at offset 0004
  words that differ: 3 of 768
NEW: accepted, 1 pages, 3072 bytes at 20000000
SIGNED: accepted, 1 pages, 3072 bytes at 20000000

The mappings that differ
  image   virtual          physical  page     access
  none: the words that differ map the same pages

The words that differ
  offset  words  image   word      megabyte  table   index  virtual          page
  0004    1      signed  20000401  1         first   1      100000 - 1FFFFF  \
coarse table at offset 0400
                 new     20000801  1         first   1      100000 - 1FFFFF  \
coarse table at offset 0800
  0400    1      signed  12345032  1         coarse  0      100000 - 100FFF  small 12345000 rw
                 new     00000000  in no table
  0800    1      signed  00000000  in no table
                 new     12345032  1         coarse  0      100000 - 100FFF  small 12345000 rw
",
    );
}

/// Mappings of either image in one order, by where they start: without access, within one
/// another, and at the ends of both spaces.
#[test]
fn mappings_in_order() {
    let _turn = turn();
    let Some(bench) = Bench::new("diff_order") else { return };
    // Without access in either: a page that is the same, one that was rw, and two alone.
    let both = [(8, 1, COARSE), (0x400, 16, 0xABCD_0C01)];
    let new = [(0x440, 1, 0x1234_5002), (0x7FC, 1, 0xABCD_E012)];
    let signed = [(0x440, 1, 0x1234_5032), (20, 1, 0x0010_0002)];
    bench.expect_written(
        0x800,
        &[both, new].concat(),
        &[both, signed].concat(),
        "\
NEW parts from SIGNED at offset 0014
  words that differ: 3 of 512
NEW: accepted, 3 pages, 2048 bytes at 20000000
SIGNED: accepted, 3 pages, 2048 bytes at 20000000

The mappings that differ
  image   virtual          physical  page     access
  signed  210000 - 210FFF  12345000  small    rw
  new     210000 - 210FFF  12345000  small    -
  new     2FF000 - 2FFFFF  ABCDE000  small    -1
  signed  500000 - 5FFFFF  00100000  section  -

The words that differ
  offset  words  image   word      megabyte  table   index  virtual          page
  0014    1      signed  00100002  5         first   5      500000 - 5FFFFF  section 00100000 -
                 new     00000000  5         first   5      500000 - 5FFFFF  nothing
  0440    1      signed  12345032  2         coarse  16     210000 - 210FFF  small 12345000 rw
                 new     12345002  2         coarse  16     210000 - 210FFF  small 12345000 -
  07FC    1      signed  00000000  2         coarse  255    2FF000 - 2FFFFF  nothing
                 new     ABCDE012  2         coarse  255    2FF000 - 2FFFFF  small ABCDE000 -1
",
    );
    bench.expect_written(
        0x2000,
        &[(12, 1, FINE), (0x1004, 1, 0x1234_5423), (0x1FFC, 1, 0xFFFF_FC33)],
        &[(12, 1, 0x7770_0C02), (60, 1, 0xFFF0_0802)],
        "\
NEW parts from SIGNED at offset 000C
  words that differ: 4 of 2048
NEW: accepted, 2 pages, 8192 bytes at 20000000
SIGNED: accepted, 2 pages, 8192 bytes at 20000000

The mappings that differ
  image   virtual          physical  page     access
  signed  300000 - 3FFFFF  77700000  section  rw
  new     300400 - 3007FF  12345400  tiny     r
  new     3FFC00 - 3FFFFF  FFFFFC00  tiny     rw
  signed  F00000 - FFFFFF  FFF00000  section  r

The words that differ
  offset  words  image   word      megabyte  table   index  virtual          page
  000C    1      signed  77700C02  3         first   3      300000 - 3FFFFF  section 77700000 rw
                 new     20001003  3         first   3      300000 - 3FFFFF  \
fine table at offset 1000
  003C    1      signed  FFF00802  F         first   15     F00000 - FFFFFF  section FFF00000 r
                 new     00000000  F         first   15     F00000 - FFFFFF  nothing
  1004    1      signed  00000000  in no table
                 new     12345423  3         fine    1      300400 - 3007FF  tiny 12345400 r
  1FFC    1      signed  00000000  in no table
                 new     FFFFFC33  3         fine    1023   3FFC00 - 3FFFFF  tiny FFFFFC00 rw
",
    );
}

/// The example, cut: between two words, where a table is lost, and to nothing.
#[test]
fn cut_short() {
    let _turn = turn();
    let Some(bench) = Bench::new("diff_cut") else { return };
    let (_, whole) = bench.the_box();
    bench.expect(
        &whole[..0x1800],
        &whole,
        &[],
        "\
NEW parts from SIGNED at offset 1800
  words that differ: 0 of 1536
  SIGNED has 2048 bytes more, from offset 1800 on
NEW: refused 17 at 2000003C: word 15 of the first level, 20001003, names a fine table at \
20001000 to 20001FFF, which is not inside the image, 20000000 to 200017FF
SIGNED: accepted, 14 pages, 8192 bytes at 20000000

The words that differ
  offset  words  image   word      megabyte  table   index  virtual          page
  1800    4      signed  0000E022  F         fine    512    F80000 - F80FFF  small 0000E000 r
                 new     -         past its end
",
    );
    bench.expect(
        &whole,
        &whole[..0x1804],
        &[],
        "\
NEW parts from SIGNED at offset 1804
  words that differ: 0 of 1537
  NEW has 2044 bytes more, from offset 1804 on
NEW: accepted, 14 pages, 8192 bytes at 20000000
SIGNED: refused 17 at 2000003C: word 15 of the first level, 20001003, names a fine table at \
20001000 to 20001FFF, which is not inside the image, 20000000 to 20001803

The words that differ
  offset  words  image   word      megabyte  table   index  virtual          page
  1804    3      signed  -         past its end
                 new     0000E022  F         fine    513    F80400 - F80FFF  small 0000E000 r
",
    );
    // Only zeros are lost.
    bench.expect(
        &whole[..0x1FFC],
        &whole,
        &[],
        "\
NEW parts from SIGNED at offset 1FFC
  words that differ: 0 of 2047
  SIGNED has 4 bytes more, from offset 1FFC on
NEW: refused 17 at 2000003C: word 15 of the first level, 20001003, names a fine table at \
20001000 to 20001FFF, which is not inside the image, 20000000 to 20001FFB
SIGNED: accepted, 14 pages, 8192 bytes at 20000000

The words that differ
  offset  words  image   word      megabyte  table   index  virtual          page
",
    );
    let more = [&whole[..], &[0; 8]].concat();
    bench.expect(
        &more,
        &whole,
        &[],
        "\
NEW parts from SIGNED at offset 2000
  words that differ: 0 of 2048
  NEW has 8 bytes more, from offset 2000 on
NEW: accepted, 14 pages, 8200 bytes at 20000000
SIGNED: accepted, 14 pages, 8192 bytes at 20000000

The mappings that differ
  image   virtual          physical  page     access
  none: the words that differ map the same pages

The words that differ
  offset  words  image   word      megabyte  table   index  virtual          page
",
    );
    let section = Image::written(BASE, 64, &[(8, 1, 0x1230_0802)]).memory;
    bench.expect(
        b"",
        &section,
        &[],
        "\
NEW parts from SIGNED at offset 0000
  words that differ: 0 of 0
  SIGNED has 64 bytes more, from offset 0000 on
NEW: refused 17 at 20000000: the first-level table, 20000000 to 2000003F, is not inside the \
image, which has 0 bytes
SIGNED: accepted, 1 pages, 64 bytes at 20000000

The words that differ
  offset  words  image   word      megabyte  table   index  virtual          page
  0008    1      signed  12300802  2         first   2      200000 - 2FFFFF  section 12300000 r
                 new     -         past its end
",
    );
}

/// Lengths that are no images': whatever the other one is, and whatever the base.
#[test]
fn lengths_refused() {
    let _turn = turn();
    let Some(bench) = Bench::new("diff_lengths") else { return };
    let (_, whole) = bench.the_box();
    let (odd, long) = (&whole[..8_190], &[0; 131_076][..]);
    let uneven = |whose: &str, bytes| {
        format!("{whose}: refused 4: the image has {bytes} bytes, which is no multiple of 4\n")
    };
    let too_long =
        |whose: &str| format!("{whose}: refused 4: the image has more than 131072 bytes\n");
    for base in [&[][..], &["20000001"], &["FFFFFF80"], &["0"]] {
        bench.expect(odd, &whole, base, &uneven("NEW", 8_190));
        bench.expect(&whole, odd, base, &uneven("SIGNED", 8_190));
        bench.expect(odd, odd, base, &(uneven("NEW", 8_190) + &uneven("SIGNED", 8_190)));
        bench.expect(b"a", odd, base, &(uneven("NEW", 1) + &uneven("SIGNED", 8_190)));
        bench.expect(long, &whole, base, &too_long("NEW"));
        bench.expect(&whole, long, base, &too_long("SIGNED"));
        bench.expect(long, long, base, &(too_long("NEW") + &too_long("SIGNED")));
        bench.expect(odd, long, base, &(uneven("NEW", 8_190) + &too_long("SIGNED")));
        bench.expect(long, odd, base, &(too_long("NEW") + &uneven("SIGNED", 8_190)));
    }
    // Too long comes before no multiple of 4.
    for length in [131_073, 131_074, 131_075, 131_080, 500_001] {
        bench.expect(&vec![0; length], b"", &[], &too_long("NEW"));
        bench.expect(b"", &vec![0; length], &[], &too_long("SIGNED"));
    }
    bench.expect(&[0; 131_071], &[0; 131_072], &[], &uneven("NEW", 131_071));
}

/// An image that the check refuses is shown word by word, and the other one with its pages.
#[test]
fn refused_by_the_check() {
    let _turn = turn();
    let Some(bench) = Bench::new("diff_refused") else { return };
    let (_, whole) = bench.the_box();
    let mut group = whole.clone();
    put_word(&mut group, 0x444, 0);
    bench.expect(
        &group,
        &whole,
        &[],
        "\
NEW parts from SIGNED at offset 0444
  words that differ: 1 of 2048
NEW: refused 18 at 20000440: word 16 of the coarse table of megabyte 1 at 20000400, for \
virtual 110000, says a large page (value 00020031), and its group of 16 words, 20000440 to \
2000047F, is not all equal: the word at 20000444 is 00000000
SIGNED: accepted, 14 pages, 8192 bytes at 20000000

The words that differ
  offset  words  image   word      megabyte  table   index  virtual          page
  0444    1      signed  00020031  1         coarse  17     111000 - 111FFF  large 00020000 rw
                 new     00000000
",
    );
    bench.expect(
        &whole,
        &group,
        &[],
        "\
NEW parts from SIGNED at offset 0444
  words that differ: 1 of 2048
NEW: accepted, 14 pages, 8192 bytes at 20000000
SIGNED: refused 18 at 20000440: word 16 of the coarse table of megabyte 1 at 20000400, for \
virtual 110000, says a large page (value 00020031), and its group of 16 words, 20000440 to \
2000047F, is not all equal: the word at 20000444 is 00000000

The words that differ
  offset  words  image   word      megabyte  table   index  virtual          page
  0444    1      signed  00000000
                 new     00020031  1         coarse  17     111000 - 111FFF  large 00020000 rw
",
    );
    bench.expect(
        &group,
        &whole,
        &["20000040"],
        "\
NEW parts from SIGNED at offset 0444
  words that differ: 1 of 2048
NEW: refused 4: the base, 20000040, is no multiple of 128
SIGNED: refused 4: the base, 20000040, is no multiple of 128

The words that differ
  offset  words  image   word      megabyte  table   index  virtual          page
  0444    1      signed  00020031
                 new     00000000
",
    );
    bench.expect(
        &whole[..0x1000],
        &whole,
        &["FFFFF000"],
        "\
NEW parts from SIGNED at offset 1000
  words that differ: 0 of 1024
  SIGNED has 4096 bytes more, from offset 1000 on
NEW: refused 17 at FFFFF004: word 1 of the first level, 20000401, names a coarse table at \
20000400 to 200007FF, which is not inside the image, FFFFF000 to FFFFFFFF
SIGNED: refused 4: the image, 8192 bytes at FFFFF000, ends past FFFFFFFF

The words that differ
  offset  words  image   word      megabyte  table   index  virtual          page
  1000    1      signed  0000F033
                 new     -         past its end
  1004    1      signed  0000F023
                 new     -         past its end
  1800    4      signed  0000E022
                 new     -         past its end
",
    );
}

/// Words in no table, in the tables of two megabytes, in tables that lie over each other
/// and over the first level, and pages of every access.
#[test]
fn places_of_a_word() {
    let _turn = turn();
    let Some(bench) = Bench::new("diff_places") else { return };
    bench.expect_written(
        0x400,
        &[(0x100, 2, 0x1234_5678), (0x108, 1, 0x1234_5679)],
        &[(0x110, 1, 2)],
        "\
NEW parts from SIGNED at offset 0100
  words that differ: 4 of 256
NEW: accepted, 0 pages, 1024 bytes at 20000000
SIGNED: accepted, 0 pages, 1024 bytes at 20000000

The mappings that differ
  image   virtual          physical  page     access
  none: the words that differ map the same pages

The words that differ
  offset  words  image   word      megabyte  table   index  virtual          page
  0100    2      signed  00000000  in no table
                 new     12345678  in no table
  0108    1      signed  00000000  in no table
                 new     12345679  in no table
  0110    1      signed  00000002  in no table
                 new     00000000  in no table
",
    );
    bench.expect_written(
        0x800,
        &[(16, 1, COARSE), (36, 1, COARSE | 4), (0x408, 1, 0x1234_6032)],
        &[(16, 1, COARSE), (36, 1, COARSE | 4), (0x408, 1, 0x1234_5022)],
        "\
NEW parts from SIGNED at offset 0408
  words that differ: 1 of 512
NEW: accepted, 2 pages, 2048 bytes at 20000000
SIGNED: accepted, 2 pages, 2048 bytes at 20000000

The mappings that differ
  image   virtual          physical  page     access
  signed  402000 - 402FFF  12345000  small    r
  new     402000 - 402FFF  12346000  small    rw
  signed  902000 - 902FFF  12345000  small    r
  new     902000 - 902FFF  12346000  small    rw

The words that differ
  offset  words  image   word      megabyte  table   index  virtual          page
  0408    1      signed  12345022  4         coarse  2      402000 - 402FFF  small 12345000 r
                                   9         coarse  2      902000 - 902FFF  small 12345000 r
                 new     12346032  4         coarse  2      402000 - 402FFF  small 12346000 rw
                                   9         coarse  2      902000 - 902FFF  small 12346000 rw
",
    );
    bench.expect_written(
        0x800,
        &[(16, 1, COARSE), (40, 1, COARSE | 4), (0x408, 1, 0x1234_5022)],
        &[(0x408, 2, 0x1234_5022)],
        "\
NEW parts from SIGNED at offset 0010
  words that differ: 3 of 512
NEW: accepted, 2 pages, 2048 bytes at 20000000
SIGNED: accepted, 0 pages, 2048 bytes at 20000000

The mappings that differ
  image   virtual          physical  page     access
  new     402000 - 402FFF  12345000  small    r
  new     A02000 - A02FFF  12345000  small    r

The words that differ
  offset  words  image   word      megabyte  table   index  virtual          page
  0010    1      signed  00000000  4         first   4      400000 - 4FFFFF  nothing
                 new     20000401  4         first   4      400000 - 4FFFFF  \
coarse table at offset 0400
  0028    1      signed  00000000  A         first   10     A00000 - AFFFFF  nothing
                 new     20000405  A         first   10     A00000 - AFFFFF  \
coarse table at offset 0400
  040C    1      signed  12345022  in no table
                 new     00000000  4         coarse  3      403000 - 403FFF  nothing
                                   A         coarse  3      A03000 - A03FFF  nothing
",
    );
    // Under a fine table a section is a small word.
    bench.expect_written(
        0x1000,
        &[(0, 4, 0x7780_0832), (60, 1, BASE + 0x33)],
        &[(0, 4, 0x7770_0C22), (60, 1, BASE + 0x23)],
        "\
NEW parts from SIGNED at offset 0000
  words that differ: 5 of 1024
NEW: accepted, 6 pages, 4096 bytes at 20000000
SIGNED: accepted, 6 pages, 4096 bytes at 20000000

The mappings that differ
  image   virtual          physical  page     access
  signed  000000 - 0FFFFF  77700000  section  rw
  new     000000 - 0FFFFF  77800000  section  r
  signed  100000 - 1FFFFF  77700000  section  rw
  new     100000 - 1FFFFF  77800000  section  r
  signed  200000 - 2FFFFF  77700000  section  rw
  new     200000 - 2FFFFF  77800000  section  r
  signed  300000 - 3FFFFF  77700000  section  rw
  new     300000 - 3FFFFF  77800000  section  r
  signed  F00000 - F00FFF  77700000  small    r
  new     F00000 - F00FFF  77800000  small    rw
  signed  F03C00 - F03FFF  20000000  tiny     r
  new     F03C00 - F03FFF  20000000  tiny     rw

The words that differ
  offset  words  image   word      megabyte  table   index  virtual          page
  0000    4      signed  77700C22  0         first   0      000000 - 3FFFFF  section 77700000 rw
                                   F         fine    0      F00000 - F00FFF  small 77700000 r
                 new     77800832  0         first   0      000000 - 3FFFFF  section 77800000 r
                                   F         fine    0      F00000 - F00FFF  small 77800000 rw
  003C    1      signed  20000023  F         first   15     F00000 - FFFFFF  \
fine table at offset 0000
                                   F         fine    15     F03C00 - F03FFF  tiny 20000000 r
                 new     20000033  F         first   15     F00000 - FFFFFF  \
fine table at offset 0000
                                   F         fine    15     F03C00 - F03FFF  tiny 20000000 rw
",
    );
    let both = [(0, 1, BASE + 0x1801), (4, 1, FINE), (0x1800, 64, 0x5555_0031)];
    bench.expect_written(
        0x2000,
        &[&both[..], &[(0x1BF0, 4, 0x32)]].concat(),
        &[&both[..], &[(0x1BF0, 4, 0x22)]].concat(),
        "\
NEW parts from SIGNED at offset 1BF0
  words that differ: 4 of 2048
NEW: accepted, 10 pages, 8192 bytes at 20000000
SIGNED: accepted, 10 pages, 8192 bytes at 20000000

The mappings that differ
  image   virtual          physical  page     access
  signed  0FC000 - 0FCFFF  00000000  small    r
  new     0FC000 - 0FCFFF  00000000  small    rw
  signed  0FD000 - 0FDFFF  00000000  small    r
  new     0FD000 - 0FDFFF  00000000  small    rw
  signed  0FE000 - 0FEFFF  00000000  small    r
  new     0FE000 - 0FEFFF  00000000  small    rw
  signed  0FF000 - 0FFFFF  00000000  small    r
  new     0FF000 - 0FFFFF  00000000  small    rw
  signed  1BF000 - 1BFFFF  00000000  small    r
  new     1BF000 - 1BFFFF  00000000  small    rw

The words that differ
  offset  words  image   word      megabyte  table   index  virtual          page
  1BF0    4      signed  00000022  0         coarse  252    0FC000 - 0FFFFF  small 00000000 r
                                   1         fine    764    1BF000 - 1BFFFF  small 00000000 r
                 new     00000032  0         coarse  252    0FC000 - 0FFFFF  small 00000000 rw
                                   1         fine    764    1BF000 - 1BFFFF  small 00000000 rw
",
    );
    // A coarse table's tiny words are no pages.
    bench.expect_written(
        0x800,
        &[(0, 1, COARSE), (0x400, 256, 3), (0x444, 1, 0x1234_5032)],
        &[(0, 1, COARSE), (0x400, 256, 0x1234_5433), (0x444, 1, 0x1234_5032)],
        "\
NEW parts from SIGNED at offset 0400
  words that differ: 255 of 512
NEW: accepted, 1 pages, 2048 bytes at 20000000
SIGNED: accepted, 1 pages, 2048 bytes at 20000000

The mappings that differ
  image   virtual          physical  page     access
  none: the words that differ map the same pages

The words that differ
  offset  words  image   word      megabyte  table   index  virtual          page
  0400    17     signed  12345433  0         coarse  0      000000 - 010FFF  nothing
                 new     00000003  0         coarse  0      000000 - 010FFF  nothing
  0448    238    signed  12345433  0         coarse  18     012000 - 0FFFFF  nothing
                 new     00000003  0         coarse  18     012000 - 0FFFFF  nothing
",
    );
    let tables = [(8, 1, COARSE), (60, 1, FINE)];
    let new = [(0, 1, 0x0010_0432), (0x440, 1, 0xABCD_E002), (0x1000, 64, 0x1234_0011)];
    let signed = [(0, 1, 0x0010_0032), (0x440, 1, 0xABCD_E012), (0x1000, 64, 0x1234_0001)];
    bench.expect_written(
        0x2000,
        &[&tables[..], &new, &[(0x1100, 1, 0x1234_5403)]].concat(),
        &[&tables[..], &signed, &[(0x1100, 1, 0x1234_5413)]].concat(),
        "\
NEW parts from SIGNED at offset 0000
  words that differ: 67 of 2048
NEW: accepted, 4 pages, 8192 bytes at 20000000
SIGNED: accepted, 4 pages, 8192 bytes at 20000000

The mappings that differ
  image   virtual          physical  page     access
  signed  000000 - 0FFFFF  00100000  section  -
  new     000000 - 0FFFFF  00100000  section  -1
  signed  210000 - 210FFF  ABCDE000  small    -1
  new     210000 - 210FFF  ABCDE000  small    -
  signed  F00000 - F0FFFF  12340000  large    -
  new     F00000 - F0FFFF  12340000  large    -1
  signed  F10000 - F103FF  12345400  tiny     -1
  new     F10000 - F103FF  12345400  tiny     -

The words that differ
  offset  words  image   word      megabyte  table   index  virtual          page
  0000    1      signed  00100032  0         first   0      000000 - 0FFFFF  section 00100000 -
                 new     00100432  0         first   0      000000 - 0FFFFF  section 00100000 -1
  0440    1      signed  ABCDE012  2         coarse  16     210000 - 210FFF  small ABCDE000 -1
                 new     ABCDE002  2         coarse  16     210000 - 210FFF  small ABCDE000 -
  1000    64     signed  12340001  F         fine    0      F00000 - F0FFFF  large 12340000 -
                 new     12340011  F         fine    0      F00000 - F0FFFF  large 12340000 -1
  1100    1      signed  12345413  F         fine    64     F10000 - F103FF  tiny 12345400 -1
                 new     12345403  F         fine    64     F10000 - F103FF  tiny 12345400 -
",
    );
}

/// A row of words that differ in the same way is cut after the first level, where a table
/// may begin, and at the end of either image.
#[test]
fn rows_are_cut() {
    let _turn = turn();
    let Some(bench) = Bench::new("diff_rows") else { return };
    let zeros = [0; 0x840];
    let row = Image::written(BASE, 0x840, &[(0x38, 514, 4)]).memory;
    bench.expect(
        &row,
        &zeros,
        &[],
        "\
NEW parts from SIGNED at offset 0038
  words that differ: 514 of 528
NEW: accepted, 0 pages, 2112 bytes at 20000000
SIGNED: accepted, 0 pages, 2112 bytes at 20000000

The mappings that differ
  image   virtual          physical  page     access
  none: the words that differ map the same pages

The words that differ
  offset  words  image   word      megabyte  table   index  virtual          page
  0038    2      signed  00000000  E         first   14     E00000 - FFFFFF  nothing
                 new     00000004  E         first   14     E00000 - FFFFFF  nothing
  0040    240    signed  00000000  in no table
                 new     00000004  in no table
  0400    256    signed  00000000  in no table
                 new     00000004  in no table
  0800    16     signed  00000000  in no table
                 new     00000004  in no table
",
    );
    bench.expect(
        &row,
        &zeros,
        &["20000380"],
        "\
NEW parts from SIGNED at offset 0038
  words that differ: 514 of 528
NEW: accepted, 0 pages, 2112 bytes at 20000380
SIGNED: accepted, 0 pages, 2112 bytes at 20000380

The mappings that differ
  image   virtual          physical  page     access
  none: the words that differ map the same pages

The words that differ
  offset  words  image   word      megabyte  table   index  virtual          page
  0038    2      signed  00000000  E         first   14     E00000 - FFFFFF  nothing
                 new     00000004  E         first   14     E00000 - FFFFFF  nothing
  0040    16     signed  00000000  in no table
                 new     00000004  in no table
  0080    256    signed  00000000  in no table
                 new     00000004  in no table
  0480    240    signed  00000000  in no table
                 new     00000004  in no table
",
    );
    bench.expect(
        &row,
        &zeros,
        &["20000001"],
        "\
NEW parts from SIGNED at offset 0038
  words that differ: 514 of 528
NEW: refused 4: the base, 20000001, is no multiple of 128
SIGNED: refused 4: the base, 20000001, is no multiple of 128

The words that differ
  offset  words  image   word      megabyte  table   index  virtual          page
  0038    2      signed  00000000
                 new     00000004
  0040    512    signed  00000000
                 new     00000004
",
    );
    bench.expect(
        &row,
        &zeros[..0x60],
        &[],
        "\
NEW parts from SIGNED at offset 0038
  words that differ: 10 of 24
  NEW has 2016 bytes more, from offset 0060 on
NEW: accepted, 0 pages, 2112 bytes at 20000000
SIGNED: accepted, 0 pages, 96 bytes at 20000000

The mappings that differ
  image   virtual          physical  page     access
  none: the words that differ map the same pages

The words that differ
  offset  words  image   word      megabyte  table   index  virtual          page
  0038    2      signed  00000000  E         first   14     E00000 - FFFFFF  nothing
                 new     00000004  E         first   14     E00000 - FFFFFF  nothing
  0040    8      signed  00000000  in no table
                 new     00000004  in no table
  0060    232    signed  -         past its end
                 new     00000004  in no table
  0400    256    signed  -         past its end
                 new     00000004  in no table
  0800    16     signed  -         past its end
                 new     00000004  in no table
",
    );
    // The new image has no room for its first level.
    bench.expect(
        &zeros[..0x3C],
        &row[..0x48],
        &[],
        "\
NEW parts from SIGNED at offset 0038
  words that differ: 1 of 15
  SIGNED has 12 bytes more, from offset 003C on
NEW: refused 17 at 20000000: the first-level table, 20000000 to 2000003F, is not inside the \
image, which has 60 bytes
SIGNED: accepted, 0 pages, 72 bytes at 20000000

The words that differ
  offset  words  image   word      megabyte  table   index  virtual          page
  0038    1      signed  00000004  E         first   14     E00000 - EFFFFF  nothing
                 new     00000000
  003C    1      signed  00000004  F         first   15     F00000 - FFFFFF  nothing
                 new     -         past its end
  0040    2      signed  00000004  in no table
                 new     -         past its end
",
    );
    // Only words one after another are a row, where both images' words are the same.
    let words = [(0x80, 6, 0x70), (0x90, 1, 0)];
    bench.expect_written(
        0x100,
        &words,
        &[(0x84, 1, 0x74), (0xC0, 1, 4)],
        "\
NEW parts from SIGNED at offset 0080
  words that differ: 6 of 64
NEW: accepted, 0 pages, 256 bytes at 20000000
SIGNED: accepted, 0 pages, 256 bytes at 20000000

The mappings that differ
  image   virtual          physical  page     access
  none: the words that differ map the same pages

The words that differ
  offset  words  image   word      megabyte  table   index  virtual          page
  0080    1      signed  00000000  in no table
                 new     00000070  in no table
  0084    1      signed  00000074  in no table
                 new     00000070  in no table
  0088    2      signed  00000000  in no table
                 new     00000070  in no table
  0094    1      signed  00000000  in no table
                 new     00000070  in no table
  00C0    1      signed  00000004  in no table
                 new     00000000  in no table
",
    );
}

/// Tables are named by their offset, at whatever base.
#[test]
fn bases() {
    let _turn = turn();
    let Some(bench) = Bench::new("diff_bases") else { return };
    let (list, _) = bench.the_box();
    let shorter = without(&without(&list, "small   F80000"), "tiny");
    let [new, signed] = [&shorter, &list].map(|list| bench.built(list, "12345000"));
    for base in ["12345000", "0x12345000", "0x0012345000"] {
        bench.expect(
            &new,
            &signed,
            &[base],
            "\
NEW parts from SIGNED at offset 003C
  words that differ: 1 of 1024
  SIGNED has 4096 bytes more, from offset 1000 on
NEW: accepted, 11 pages, 4096 bytes at 12345000
SIGNED: accepted, 14 pages, 8192 bytes at 12345000

The mappings that differ
  image   virtual          physical  page     access
  signed  F00000 - F003FF  0000F000  tiny     rw
  signed  F00400 - F007FF  0000F000  tiny     r
  signed  F80000 - F80FFF  0000E000  small    r

The words that differ
  offset  words  image   word      megabyte  table   index  virtual          page
  003C    1      signed  12346003  F         first   15     F00000 - FFFFFF  \
fine table at offset 1000
                 new     00000000  F         first   15     F00000 - FFFFFF  nothing
  1000    1      signed  0000F033  F         fine    0      F00000 - F003FF  tiny 0000F000 rw
                 new     -         past its end
  1004    1      signed  0000F023  F         fine    1      F00400 - F007FF  tiny 0000F000 r
                 new     -         past its end
  1800    4      signed  0000E022  F         fine    512    F80000 - F80FFF  small 0000E000 r
                 new     -         past its end
",
        );
    }
    // Without a base it is 20000000, where these tables are not.
    bench.expect(
        &new,
        &signed,
        &[],
        "\
NEW parts from SIGNED at offset 003C
  words that differ: 1 of 1024
  SIGNED has 4096 bytes more, from offset 1000 on
NEW: refused 17 at 20000004: word 1 of the first level, 12345401, names a coarse table at \
12345400 to 123457FF, which is not inside the image, 20000000 to 20000FFF
SIGNED: refused 17 at 20000004: word 1 of the first level, 12345401, names a coarse table at \
12345400 to 123457FF, which is not inside the image, 20000000 to 20001FFF

The words that differ
  offset  words  image   word      megabyte  table   index  virtual          page
  003C    1      signed  12346003
                 new     00000000
  1000    1      signed  0000F033
                 new     -         past its end
  1004    1      signed  0000F023
                 new     -         past its end
  1800    4      signed  0000E022
                 new     -         past its end
",
    );
    // Offsets have four digits, or five.
    let mut far = Image::written(BASE, 131_072, &[(0, 1, BASE + 0x1_F003)]);
    let signed = far.memory.clone();
    far.put(BASE + 0x1_FFFC, 0xABCD_E423);
    far.put(BASE, BASE + 0x1_FC01);
    bench.expect(
        &far.memory,
        &signed,
        &[],
        "\
NEW parts from SIGNED at offset 0000
  words that differ: 2 of 32768
NEW: accepted, 0 pages, 131072 bytes at 20000000
SIGNED: accepted, 0 pages, 131072 bytes at 20000000

The mappings that differ
  image   virtual          physical  page     access
  none: the words that differ map the same pages

The words that differ
  offset  words  image   word      megabyte  table   index  virtual          page
  0000    1      signed  2001F003  0         first   0      000000 - 0FFFFF  \
fine table at offset 1F000
                 new     2001FC01  0         first   0      000000 - 0FFFFF  \
coarse table at offset 1FC00
  1FFFC   1      signed  00000000  0         fine    1023   0FFC00 - 0FFFFF  nothing
                 new     ABCDE423  0         coarse  255    0FF000 - 0FFFFF  nothing
",
    );
}

/// Equal images are told as such, whatever their check says, and as files or not.
#[test]
fn equal_images() {
    let _turn = turn();
    let Some(bench) = Bench::new("diff_equal") else { return };
    let (_, whole) = bench.the_box();
    for image in [&whole[..], &whole[..0x1800], b"", &[1; 64], &[0xFF; 131_072]] {
        let length = image.len();
        let [one, other] = [bench.file("one", image), bench.file("other", image)];
        for base in [&[][..], &["20000000"], &["0x20000001"], &["FFFFFF80"]] {
            let words = |new, signed| [&[new, signed], base].concat();
            let equal = |new: &str, signed: &str| {
                Ran::told("0", format!("{new} and {signed}: equal, {length} bytes\n"))
            };
            let name = "standard input";
            same(&bench.diff(&words(&one, &other), b""), &equal(&one, &other), "two files");
            same(&bench.diff(&words(&one, &one), b""), &equal(&one, &one), "one file");
            same(&bench.diff(&words("-", &one), image), &equal(name, &one), "the new one");
            same(&bench.diff(&words(&one, "-"), image), &equal(&one, name), "the signed one");
        }
    }
}

// ---------------------------------------------------------------------------
// Files and wrong use

/// Either image may be standard input, under that name.
#[test]
fn standard_input() {
    let _turn = turn();
    let Some(bench) = Bench::new("diff_input") else { return };
    let (_, whole) = bench.the_box();
    let file = bench.file("box.image", &whole);
    let (short, said) = (&whole[..0x1800], "standard input");
    let refusal = "refused 17 at 2000003C: word 15 of the first level, 20001003, names a fine \
                   table at 20001000 to 20001FFF, which is not inside the image, 20000000 to \
                   200017FF";
    let accepted = "accepted, 14 pages, 8192 bytes at 20000000";
    let page = "small 0000E000 r";
    let new = format!(
        "{said} parts from {file} at offset 1800
  words that differ: 0 of 1536
  {file} has 2048 bytes more, from offset 1800 on
{said}: {refusal}
{file}: {accepted}
{WORDS_HEAD}  1800    4      signed  0000E022  F         fine    512    F80000 - F80FFF  {page}
                 new     -         past its end
"
    );
    let signed = format!(
        "{file} parts from {said} at offset 1800
  words that differ: 0 of 1536
  {file} has 2048 bytes more, from offset 1800 on
{file}: {accepted}
{said}: {refusal}
{WORDS_HEAD}  1800    4      signed  -         past its end
                 new     0000E022  F         fine    512    F80000 - F80FFF  {page}
"
    );
    for base in [&[][..], &["20000000"], &["0x20000000"]] {
        let words = |new, signed| [&[new, signed], base].concat();
        same(&bench.diff(&words("-", &file), short), &Ran::told("1", new.as_str()), "new");
        same(&bench.diff(&words(&file, "-"), short), &Ran::told("1", signed.as_str()), "signed");
        let both = "nx: only one of the two images can be standard input\n";
        same(&bench.diff(&words("-", "-"), short), &Ran::failed("2", both), "both");
    }
    // The longer one, and lengths that are refused.
    let short = bench.file("short.image", short);
    let longer = format!("  {said} has 2048 bytes more, from offset 1800 on\n");
    for words in [["-", &short], [&short, "-"]] {
        let ran = bench.diff(&words, &whole);
        assert!(String::from_utf8(ran.out).expect("text").contains(&longer), "{words:?}");
        let uneven = bench.diff(&words, &whole[..8_191]);
        let why = "refused 4: the image has 8191 bytes, which is no multiple of 4";
        same(&uneven, &Ran::told("1", format!("{said}: {why}\n")), "uneven");
        let long = bench.diff(&words, &[0; 131_076]);
        let why = "refused 4: the image has more than 131072 bytes";
        same(&long, &Ran::told("1", format!("{said}: {why}\n")), "too long");
    }
}

/// What cannot be read or written is told, and wrong use by the digit 2.
#[test]
fn files_and_wrong_use() {
    let _turn = turn();
    let Some(bench) = Bench::new("diff_files") else { return };
    let [good, other] = [bench.file("good", &[2; 64]), bench.file("other", &[6; 64])];
    let odd = bench.file("odd", &[2; 63]);
    for missing in [&bench.path("none"), &bench.path(""), &bench.path("good/none")] {
        for words in [
            &[missing, good.as_str()][..],
            &[&good, missing],
            &[&odd, missing],
            &[missing, &odd],
            &[missing, missing],
            &["-", missing],
            &[missing, "-"],
            &[&good, missing, "20000000"],
            &[missing, &good, "0x20000001"],
        ] {
            let ran = bench.diff(words, &[2; 64]);
            assert_eq!((ran.digit.as_str(), &ran.out[..]), ("1", &[][..]), "{words:?}");
            assert!(ran.error.starts_with(missing), "{words:?}: {}", ran.error);
            assert!(ran.error.ends_with('\n'), "{words:?}: {}", ran.error);
        }
    }
    for (base, said) in [
        ("2000000G", "nx: base 2000000G is not a hex number\n"),
        ("0x", "nx: base 0x is not a hex number\n"),
        ("-1", "nx: base -1 is not a hex number\n"),
        ("120000000", "nx: base 120000000 is too large\n"),
    ] {
        for words in [[&good, &other], [&good, &good], [&odd, &odd]] {
            let [new, signed] = words.map(String::as_str);
            for words in [[new, signed, base], ["-", signed, base], [new, "-", base]] {
                let ran = bench.diff(&words, &[2; 64]);
                same(&ran, &Ran::failed("2", said), format_args!("{words:?}"));
            }
        }
    }
    // With another number of words: how it is to be used.
    let usage = run(&bench.root, &["check"], b"").error;
    assert!(usage.contains("diff"), "{usage}");
    let (one, two) = (good.as_str(), other.as_str());
    for words in [&[][..], &[one], &["-"], &[one, two, "20000000", "20000000"]] {
        same(&bench.diff(words, b""), &Ran::failed("2", &usage), format_args!("{words:?}"));
    }
    for signed in [&good, &other] {
        let words = ["-c", "tools/run nx diff \"$1\" \"$2\" 3>&1 >/dev/full 2>/dev/null", "sh"];
        let mut full = Command::new("sh");
        let full = full.args(words).args([&good, signed]).current_dir(&bench.root).output();
        assert_eq!(full.expect("sh starts").stdout, b"1", "{signed}");
    }
}

// ---------------------------------------------------------------------------
// As the definition has it

/// The lines of the mappings that differ.
fn mappings(page: &str) -> &str {
    let (_, lines) = page.split_once(MAPPINGS_HEAD).expect("mappings");
    lines.split_once(WORDS_HEAD).expect("words").0
}

/// Every two of the images written by hand.
#[test]
fn written_by_hand() {
    let _turn = turn();
    let Some(mut bench) = Bench::new("diff_written") else { return };
    let mut dice = Dice::new(seed(0xD1FF_1000_0000));
    let rows: Vec<_> = written::accepted().into_iter().chain(written::refused_ones()).collect();
    for (new, signed) in rows.iter().flat_map(|new| rows.iter().map(move |signed| (new, signed))) {
        let pair = Pair { new: new.image.clone(), signed: signed.image.clone() };
        let title = format!("{} and {}", new.name, signed.name);
        let page = bench.agree(&mut dice, &pair, &title);
        let accepted = page.matches(": accepted, ").count();
        let says = usize::from(new.says.is_ok()) + usize::from(signed.says.is_ok());
        if pair.new.memory == pair.signed.memory {
            continue;
        }
        assert_eq!(accepted, says, "{title}");
        let (Ok(new), Ok(signed)) = (&new.says, &signed.says) else {
            assert!(!page.contains(MAPPINGS_HEAD), "{title}");
            continue;
        };
        // Of either image the pages that the other one has not.
        let lines: Vec<&str> = mappings(&page).split_inclusive('\n').collect();
        for (whose, own, other) in [("signed", signed, new), ("new", new, signed)] {
            let differ = own.iter().filter(|&page| !other.contains(page));
            let said = lines.iter().filter(|line| line[2..].starts_with(whose));
            let differ: Vec<String> = differ.map(|page| mapping(whose, page)).collect();
            assert!(said.eq(&differ), "{title}");
        }
    }
    let more = ["equal", "some words", differences::MAPPINGS[4]];
    let all = [
        &differences::LENGTHS[..],
        &differences::REFUSED,
        &differences::MAPPINGS[..3],
        &differences::PLACES,
        &more,
    ];
    bench.seen.demand(1, &names(&all.concat()));
}

/// Some smaller pages of one kind within this one, to where it leads: from its start on, or
/// from anywhere. None within a tiny one.
fn smaller(dice: &mut Dice, page: &Record) -> Vec<Record> {
    let Record { virtual_start, physical, kind, access } = *page;
    if kind == 3 {
        return vec![];
    }
    let kind = kind + 1 + dice.below(3 - u32::from(kind)) as u8;
    let size = SIZES[kind as usize];
    let any = dice.below(page.size() / size);
    let from = dice.pick(&[0, any]) * size;
    let step = (1 + dice.below(3)) * size;
    let some = (from..page.size()).step_by(step as usize).take(dice.pick(&[1, 2, 16]));
    let at = |within| {
        let (virtual_start, physical) = (virtual_start + within, physical + within);
        Record { virtual_start, physical, kind, access }
    };
    some.map(at).collect()
}

/// Images of lists that differ in one mapping: the list says what the lines are.
#[test]
fn one_mapping_changed() {
    let _turn = turn();
    let Some(mut bench) = Bench::new("diff_mapping") else { return };
    for round in 0..80 * long() {
        let mut dice = Dice::new(seed(0xD1FF_2000_0000 + u64::from(round)));
        let mut list = match dice.below(7) {
            0 => lists::list_a(),
            1 => lists::mixed(&mut dice),
            2 => lists::wide(&mut dice),
            3 | 4 => lists::exactly(&mut dice, 50, &[1, 2], 6),
            _ => {
                let most = dice.pick(&[1, 4, 16, 60, 200]);
                lists::good(&mut dice, most)
            }
        };
        let any = dice.word() & 0xFFFC_F000;
        let base = dice.pick(&[BASE, 0, any]);
        let built = |list: &[Record]| Image::built(&Second, &lists::bytes(list), base);
        let signed = built(&list);
        for _ in 0..3 {
            let kind = dice.below(4) as u8;
            let of_kind: Vec<usize> = (0..list.len()).filter(|&n| list[n].kind == kind).collect();
            let index = match &of_kind[..] {
                [] => dice.below(list.len() as u32) as usize,
                some => dice.pick(some),
            };
            let before = list[index];
            let access = dice.once_in(2);
            if access {
                list[index].access ^= 1;
            } else {
                let lowest = before.size().trailing_zeros();
                list[index].physical ^= 1 << (lowest + dice.below(32 - lowest));
            }
            let pair = Pair { new: built(&list), signed: signed.clone() };
            let page = bench.agree(&mut dice, &pair, format_args!("list {round}, {before:x?}"));
            let (offset, count) = signed.words_of(&before);
            let lines: Vec<&str> = page.lines().collect();
            assert_eq!(lines.len(), 14, "{page}");
            assert!(lines[0].ends_with(&format!(" at offset {offset:04X}")), "{page}");
            let words = signed.memory.len() / 4;
            assert_eq!(lines[1], format!("  words that differ: {count} of {words}"));
            let two = mapping("signed", &before) + &mapping("new", &list[index]);
            assert_eq!(mappings(&page), two);
            let start = format!("  {:<8}{count:<7}", format!("{offset:04X}"));
            let blank = " ".repeat(17);
            let shown = [
                (lines[12], start, "signed  ", before, &pair.signed),
                (lines[13], blank, "new     ", list[index], &pair.new),
            ];
            for (line, start, whose, record, image) in shown {
                let Record { virtual_start, physical, kind, access } = record;
                let start = format!("{start}{whose}{:08X}  ", word(&image.memory, offset));
                assert!(line.starts_with(&start), "{page}");
                let last = virtual_start + (record.size() - 1);
                let (kind, access) = (KINDS[kind as usize], ACCESS[access as usize]);
                let end =
                    format!(" {virtual_start:06X} - {last:06X}  {kind} {physical:08X} {access}");
                assert!(line.ends_with(&end), "{page}");
            }
            let how = if access { "access" } else { "place" };
            bench.seen.see(format!("type {}, {count} words, {how}", before.kind));
            list[index] = before;
        }
        // A mapping less, and one more.
        let less = list.remove(dice.below(list.len() as u32) as usize);
        let pair = Pair { new: built(&list), signed };
        let page = bench.agree(&mut dice, &pair, format_args!("list {round}, a mapping less"));
        assert_eq!(mappings(&page), mapping("signed", &less));
        let pair = pair.turned();
        let page = bench.agree(&mut dice, &pair, format_args!("list {round}, a mapping more"));
        assert_eq!(mappings(&page), mapping("new", &less));
        // Smaller pages in its place.
        let pages = smaller(&mut dice, &less);
        if !pages.is_empty() && list.len() + pages.len() <= MOST_RECORDS {
            list.extend(&pages);
            let pair = Pair { new: built(&list), signed: pair.new };
            let page = bench.agree(&mut dice, &pair, format_args!("list {round}, smaller ones"));
            let new: String = pages.iter().map(|page| mapping("new", page)).collect();
            assert_eq!(mappings(&page), mapping("signed", &less) + &new);
            bench.agree(&mut dice, &pair.turned(), format_args!("list {round}, a larger one"));
        }
    }
    let mut seen = names(&differences::LENGTHS);
    seen.extend(names(&differences::MAPPINGS[..3]));
    seen.extend(names(&differences::OTHERS));
    for (kind, count) in [(0, 1), (1, 16), (1, 64), (2, 1), (2, 4), (3, 1)] {
        seen.extend(["access", "place"].map(|how| format!("type {kind}, {count} words, {how}")));
    }
    bench.seen.demand(3, &seen);
}

/// One bit turned in a word of a builder's image, or of one from elsewhere.
#[test]
fn one_bit_turned() {
    let _turn = turn();
    let Some(mut bench) = Bench::new("diff_bit") else { return };
    for round in 0..200 * long() {
        let mut dice = Dice::new(seed(0xD1FF_3000_0000 + u64::from(round)));
        let signed = if dice.once_in(2) {
            Image::accepted(&mut dice)
        } else {
            let most = dice.pick(&[1, 4, 16, 60]);
            Image::built(&Second, &lists::bytes(&lists::good(&mut dice, most)), BASE)
        };
        let mut new = signed.clone();
        // A word of the first level or of a table, or any.
        let tables = signed.tables();
        let at = match dice.below(3) {
            1 if !tables.is_empty() => {
                let (table, size) = dice.pick(&tables);
                table + 4 * dice.below(size / 4)
            }
            0 => signed.base + 4 * dice.below(16),
            _ => signed.base + 4 * dice.below(signed.memory.len() as u32 / 4),
        };
        new.put(at, new.word(at) ^ 1 << dice.below(32));
        let pair = Pair { new, signed };
        let page = bench.agree(&mut dice, &pair, format_args!("image {round}, {at:x}"));
        let words = format!("  words that differ: 1 of {}", pair.new.memory.len() / 4);
        assert_eq!(page.lines().nth(1), Some(words.as_str()), "image {round}");
        assert_eq!(pair.runs().len(), 1, "image {round}");
    }
    let more = ["first nothing", "coarse nothing", "fine nothing", "as long"];
    // A page of one image alone comes too seldom.
    let [other, _, _, none, refused] = differences::MAPPINGS;
    let all = [&differences::REFUSED[..2], &[other, none, refused], &more].concat();
    bench.seen.demand(3, &names(&all));
}

/// The image at another base, its tables moved with it.
fn moved(mut image: Image, base: u32) -> Image {
    for megabyte in 0..16 {
        let first = image.first(megabyte);
        if matches!(first & 3, 1 | 3) {
            let first = first.wrapping_sub(image.base).wrapping_add(base);
            image.put(image.base + 4 * megabyte, first);
        }
    }
    image.base = base;
    image
}

/// An image from elsewhere, or of the builder.
fn drawn(dice: &mut Dice) -> Image {
    match dice.below(8) {
        0 => Image::drawn(dice),
        1 => Image::grouped(dice),
        2 => {
            let list = lists::good(dice, 30);
            Image::built(&Second, &lists::bytes(&list), BASE)
        }
        _ => Image::accepted(dice),
    }
}

/// A row of words over a border, all of them one in either image.
fn put_row(dice: &mut Dice, pair: &mut Pair) {
    if dice.once_in(3) {
        let longer = if dice.once_in(2) { &mut pair.new } else { &mut pair.signed };
        longer.memory.resize(longer.memory.len() + 4 * dice.pick(&[1, 16, 100]), 0);
    }
    let [new, signed] = [pair.new.memory.len(), pair.signed.memory.len()];
    let table = pair.new.base.wrapping_neg() as usize % 1_024 + dice.pick(&[0, 1_024, 4_096]);
    let border = dice.pick(&[64, table, new, signed, new.min(signed)]);
    let from = border.saturating_sub(4 * dice.pick(&[1, 3, 12, 300]));
    let to = border + 4 * dice.pick(&[1, 3, 12, 300]);
    for image in [&mut pair.new, &mut pair.signed] {
        let word = if dice.once_in(2) { 0 } else { descriptor(dice, &[0, 0, 1, 2, 3]) };
        for at in (from..to.min(image.memory.len())).step_by(4) {
            put_word(&mut image.memory, at, word);
        }
    }
}

/// Something else in one image, or in both.
fn change(dice: &mut Dice, pair: &mut Pair) {
    if dice.once_in(3) {
        return put_row(dice, pair);
    }
    let image = if dice.once_in(2) { &mut pair.new } else { &mut pair.signed };
    let words = image.memory.len() / 4;
    match dice.below(8) {
        // Shorter, or longer.
        0 => {
            let most = dice.pick(&[20, words as u32 + 1]);
            image.memory.truncate(4 * dice.below(most) as usize);
        }
        1 => image.memory.truncate(4 * words.saturating_sub(dice.pick(&[1, 2, 16, 256]))),
        2 | 3 => {
            let more = 4 * dice.pick(&[1, 2, 16, 256, 1_024]);
            image.memory.resize(4 * words + more, 0);
            if dice.once_in(2) {
                dice.fill(&mut image.memory[4 * words..]);
            }
        }
        // A first-level word at another megabyte, or another one.
        4 | 5 if words >= 16 => {
            let [from, to] = [(); 2].map(|()| dice.below(16));
            let first = match dice.below(4) {
                0 => descriptor(dice, &[0, 2]),
                1 => image.first(from) ^ 2,
                2 => image.first(from) ^ 4 << dice.below(8),
                _ => image.first(from),
            };
            image.put(image.base + 4 * to, first);
        }
        _ => {
            let some = some_words(dice, words);
            image.memory = changed(dice, &image.memory, some);
        }
    }
}

/// Mends an image that can be.
fn mend(image: &mut Image) {
    let fits = image.base.is_multiple_of(128) && image.end() <= 1 << 32;
    if fits && (64..=131_072).contains(&image.memory.len()) {
        image.mend();
    }
}

/// Images from elsewhere and others made of them, mostly accepted ones.
#[test]
fn from_the_dice() {
    let _turn = turn();
    let Some(mut bench) = Bench::new("diff_dice") else { return };
    for round in 0..500 * long() {
        let mut dice = Dice::new(seed(0xD1FF_4000_0000 + u64::from(round)));
        let signed = drawn(&mut dice);
        let base = signed.base;
        let new = match dice.below(6) {
            0 => moved(drawn(&mut dice), base),
            _ => signed.clone(),
        };
        let mut pair = Pair { new, signed };
        for _ in 0..dice.pick(&[0, 1, 1, 2, 2, 4]) {
            change(&mut dice, &mut pair);
        }
        // Now and then at another base.
        let base = match dice.below(16) {
            0 => base ^ 1 << dice.below(32),
            1 => base.wrapping_add(dice.pick(&[64, 128, 0x400, 0x1000])),
            _ => base,
        };
        (pair.new.base, pair.signed.base) = (base, base);
        if !dice.once_in(5) {
            mend(&mut pair.new);
        }
        if !dice.once_in(5) {
            mend(&mut pair.signed);
        }
        for image in [&mut pair.new, &mut pair.signed] {
            if dice.once_in(20) && !image.memory.is_empty() {
                let less = image.memory.len() - 1 - dice.below(3) as usize % image.memory.len();
                image.memory.truncate(less);
            }
        }
        bench.agree(&mut dice, &pair, format_args!("images {round}"));
    }
    let mut seen = names(&differences::LENGTHS);
    seen.extend(names(&differences::REFUSED));
    seen.extend(names(&differences::LENGTHS_REFUSED[..2]));
    seen.extend(names(&differences::MAPPINGS));
    // Another kind alone is for `one_mapping_changed`.
    seen.extend(names(&[differences::OTHERS[0], differences::OTHERS[2]]));
    seen.extend(names(&differences::CUTS));
    seen.extend(names(&differences::PLACES));
    seen.extend(names(&differences::NO_PAGES));
    seen.extend(names(&[
        "equal",
        "agrees as far as it goes",
        "no room for the first level",
        "no word shown",
        "a word",
        "some words",
        "256 words",
        "cut at a base between two tables",
    ]));
    seen.extend(differences::all_mappings());
    seen.extend(differences::all_pages());
    seen.extend(differences::no_places());
    bench.seen.demand(3, &seen);
}

/// The longest images, with another word at every place: all of it is printed.
#[test]
fn every_word_different() {
    let _turn = turn();
    let Some(mut bench) = Bench::new("diff_every") else { return };
    let mut dice = Dice::new(seed(0xD1FF_5000_0000));
    let image = |first: &dyn Fn(u32) -> u32, other: &dyn Fn(u32) -> u32| {
        let words = (0..32_768).map(|n| if n < 16 { first(n) } else { other(n) });
        Image { base: BASE, memory: words.flat_map(u32::to_le_bytes).collect() }
    };
    // Faults alone; sixteen tables of tiny pages; sixteen megabytes of one table.
    let faults = |other: u32| image(&|n| other << 31 | n << 2, &|n| other << 31 | n << 2);
    let tiny = |n: u32| n << 10 | (n % 4) << 4 | 3;
    let sixteen =
        |other: u32| image(&|n| BASE + 0x1003 + 4 * other + (n << 12), &|n| other << 31 | tiny(n));
    let one = |other: u32| {
        image(&|n| BASE + 0x1003 + (n << 2) + (other << 10), &|n| other << 31 | tiny(n))
    };
    // The last page's physical base but for its first digit, 0 or 8; no page of faults.
    for (new, signed, physical, lines, last) in [
        (faults(1), faults(0), None, 2 * 32_768, "001FFFC"),
        (sixteen(1), sixteen(0), Some("10FFC00"), 2 * 32_768, "1FFFC33"),
        (one(1), one(0), Some("01FFC00"), 2 * (32_768 + 15 * 1_024), "1FFFC33"),
    ] {
        let pair = Pair { new, signed };
        let page = bench.agree(&mut dice, &pair, "every word");
        assert!(page.contains("  words that differ: 32768 of 32768\n"));
        let (pages, end) = match physical {
            None => (1, NO_MAPPINGS.into()),
            Some(physical) => {
                let end = format!(
                    "  signed  FFFC00 - FFFFFF  0{physical}  tiny     rw
  new     FFFC00 - FFFFFF  8{physical}  tiny     rw\n"
                );
                (2 * 16_384, end)
            }
        };
        assert_eq!(mappings(&page).lines().count(), pages);
        assert!(mappings(&page).ends_with(&end), "to be {end}");
        assert_eq!(page.lines().count(), 10 + pages + lines);
        let end = format!(
            "  1FFFC   1      signed  0{last}  in no table
                 new     8{last}  in no table\n"
        );
        assert!(page.ends_with(&end), "{}", &page[page.len() - 200..]);
        // Beside no image, and beside one of as many zeros.
        for signed in [vec![], vec![0; 131_072]] {
            let signed = Image { base: BASE, memory: signed };
            let pair = Pair { new: pair.new.clone(), signed };
            bench.agree(&mut dice, &pair, "beside nothing");
            bench.agree(&mut dice, &pair.turned(), "beside nothing");
        }
    }
}
