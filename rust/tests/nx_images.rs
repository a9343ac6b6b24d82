//! The built program `crates/nx/out/nx` on images from elsewhere (P4): `nx check`, `nx list`
//! and `nx map` answer as the second program's check and list do, and why an image is
//! refused is told in one sentence.
//!
//! NX_LONG, NX_SEED and NX_WITHOUT_NATIVE are as for `nx.rs`.

mod common;

use common::coverage::Coverage;
use common::images::Image;
use common::lists::{self, Record};
use common::nx::{folder, root, run, Ran};
use common::rows::BASE;
use common::told::{checked, why, ACCESS, KINDS};
use common::written::{self, page, COARSE};
use common::{long, put_word, seed, turn};
use second::answer::Refused;
use second::boundary::Second;
use second::builder::MOST_RECORDS;
use second::dice::Dice;
use std::fmt::Display;
use std::fs;
use std::path::Path;
use std::process::Command;

// ---------------------------------------------------------------------------
// What is to be said of an image

/// A page's line in a list.
fn line(page: &Record) -> String {
    let Record { virtual_start, physical, kind, access } = *page;
    let (kind, access) = (KINDS[kind as usize], ACCESS[access as usize]);
    format!("{kind:<7} {virtual_start:06X} {physical:08X} {access}\n")
}

/// A page's box in a picture, by a kilobyte to the pixel and a megabyte to the row.
fn drawn(page: &Record) -> String {
    let Record { virtual_start, physical, kind, access } = *page;
    let rectangle = |class: &str| {
        let x = 96 + virtual_start % (1 << 20) / 1_024;
        let y = 124 + 56 * (virtual_start >> 20);
        let width = page.size() / 1_024;
        format!(r#"<rect class="{class}" x="{x}" y="{y}" width="{width}" height="24"/>"#)
    };
    let cover =
        ["n", "n", "h"].get(access as usize).map_or(String::new(), |class| rectangle(class));
    let access = ["no access", "no access (1)", "r", "rw"][access as usize];
    let name = KINDS[kind as usize];
    let own = rectangle(&format!("k{kind}"));
    format!(
        "<g><title>{virtual_start:06X} to {physical:08X}, {name}, {access} </title>\
         {own}{cover}</g>"
    )
}

/// The boxes of a picture, a line each, without what their pages are for.
fn boxes(picture: &[u8]) -> Vec<String> {
    let picture = std::str::from_utf8(picture).expect("text");
    assert!(picture.starts_with("<svg ") && picture.ends_with("</svg>\n"));
    let lines = picture.lines().filter(|line| line.starts_with("<g>"));
    lines
        .map(|line| {
            let (title, rest) = line.split_once("</title>").expect("a title");
            let purpose = title.find(" r ").map(|at| at + 3);
            let purpose = purpose.or(title.find(" rw ").map(|at| at + 4));
            format!("{}</title>{rest}", &title[..purpose.unwrap_or(title.len())])
        })
        .collect()
}

/// What a command gives that does all there is to do.
fn fine(out: impl Into<Vec<u8>>) -> Ran {
    Ran::told("0", out)
}

/// What a command gives that refuses an image: `nx check` was asked just that.
fn no(command: &str, said: &str) -> Ran {
    if command == "check" {
        Ran::told("1", said)
    } else {
        Ran::failed("1", said)
    }
}

/// The three commands on an image that is standard input. Gives what the second program
/// says of it.
fn agree(root: &Path, image: &Image, title: impl Display) -> Result<Vec<Record>, Refused> {
    let base = format!("{:08X}", image.base);
    let go = |command| run(root, &[command, "-", &base], &image.memory);
    let (says, said) = checked(image, "standard input");
    match &says {
        Ok(pages) => {
            assert_eq!(go("check"), fine(said), "{title}");
            let lines: String = pages.iter().map(line).collect();
            assert!(go("list") == fine(lines), "{title}: list");
            let map = go("map");
            assert_eq!((map.digit.as_str(), map.error.as_str()), ("0", ""), "{title}: map");
            assert!(boxes(&map.out).into_iter().eq(pages.iter().map(drawn)), "{title}: map");
        }
        Err(_) => {
            for command in ["check", "list", "map"] {
                assert_eq!(go(command), no(command, &said), "{title}: {command}");
            }
        }
    }
    says
}

// ---------------------------------------------------------------------------
// Images of which it is said here what comes of them

/// The image of the example, and others made of it: all that is said, letter by letter.
#[test]
fn the_box_and_its_refusals() {
    let _turn = turn();
    let Some(root) = root() else { return };
    let folder = folder("foreign");
    let path = |name: &str| folder.join(name).display().to_string();
    let built = run(&root, &["build", "examples/box.list", &path("box.image")], b"");
    assert_eq!(built.digit, "0");
    let whole = fs::read(path("box.image")).expect("an image");
    let (mut group, mut outside) = (whole.clone(), whole.clone());
    put_word(&mut group, 0x444, 0);
    put_word(&mut outside, 20, 0x2000_9003);
    for (name, bytes) in [
        ("group.image", &group[..]),
        ("outside.image", &outside),
        ("short.image", &whole[..32]),
        ("odd.image", &whole[..8_190]),
        ("long.image", &[0; 131_076]),
    ] {
        fs::write(path(name), bytes).expect(name);
    }
    for (name, base, said) in [
        (
            "group.image",
            "20000000",
            "refused 18 at 20000440: word 16 of the coarse table of megabyte 1 at 20000400, \
             for virtual 110000, says a large page (value 00020031), and its group of 16 words, \
             20000440 to 2000047F, is not all equal: the word at 20000444 is 00000000",
        ),
        (
            "outside.image",
            "20000000",
            "refused 17 at 20000014: word 5 of the first level, 20009003, names a fine table at \
             20009000 to 20009FFF, which is not inside the image, 20000000 to 20001FFF",
        ),
        (
            "short.image",
            "20000000",
            "refused 17 at 20000000: the first-level table, 20000000 to 2000003F, \
             is not inside the image, which has 32 bytes",
        ),
        ("odd.image", "20000000", "refused 4: the image has 8190 bytes, which is no multiple of 4"),
        ("long.image", "20000000", "refused 4: the image has more than 131072 bytes"),
        ("box.image", "20000040", "refused 4: the base, 20000040, is no multiple of 128"),
        (
            "box.image",
            "FFFFF000",
            "refused 4: the image, 8192 bytes at FFFFF000, ends past FFFFFFFF",
        ),
    ] {
        let image = path(name);
        for command in ["check", "list", "map"] {
            let ran = run(&root, &[command, &image, base], b"");
            assert_eq!(ran, no(command, &format!("{image}: {said}\n")), "{command}");
        }
    }

    // The base may be written as in `nx build`.
    let image = path("box.image");
    for base in ["20000000", "0x20000000", "0020000000"] {
        let said = format!("{image}: accepted, 14 pages, 8192 bytes at 20000000\n");
        assert_eq!(run(&root, &["check", &image, base], b""), fine(said));
    }
    for (base, said) in [
        ("2000000G", "nx: base 2000000G is not a hex number\n"),
        ("120000000", "nx: base 120000000 is too large\n"),
    ] {
        for command in ["check", "list", "map"] {
            let ran = run(&root, &[command, &image, base], b"");
            assert_eq!(ran, Ran::failed("2", said));
        }
    }

    // The list is the example without what it says beside its mappings.
    let example = fs::read_to_string(root.join("examples/box.list")).expect("the example");
    let mappings = example.lines().map(|line| line.split('#').next().unwrap_or("").trim_end());
    let mappings = mappings.filter(|line| !line.is_empty()).map(|line| format!("{line}\n"));
    let list = run(&root, &["list", &image, "20000000"], b"");
    assert_eq!(list, fine(mappings.collect::<String>()));
    // The picture has its boxes.
    let map = run(&root, &["map", &image, "20000000"], b"");
    assert_eq!((map.digit.as_str(), map.error.as_str()), ("0", ""));
    let from_list = run(&root, &["map", "examples/box.list"], b"");
    assert_eq!(boxes(&map.out), boxes(&from_list.out));
    assert_eq!(boxes(&map.out).len(), 14);
    let picture = String::from_utf8(map.out).expect("text");
    assert!(picture.contains(&format!(">{image}</text>")));
    assert!(picture.contains(">14 pages in 16 megabytes of virtual addresses;"));
}

/// Pages that may be neither read nor written are listed and drawn.
#[test]
fn no_access() {
    let _turn = turn();
    let Some(root) = root() else { return };
    let image = Image::written(
        BASE,
        0x800,
        &[(0, 1, 0x1230_0002), (4, 1, 0x1240_0402), (8, 1, COARSE), (0x400, 1, 0xABCD_E012)],
    );
    let list = run(&root, &["list", "-", "20000000"], &image.memory);
    assert_eq!(
        list,
        fine(
            "section 000000 12300000 -\n\
             section 100000 12400000 -1\n\
             small   200000 ABCDE000 -1\n"
        )
    );
    let map = run(&root, &["map", "-", "20000000"], &image.memory);
    assert_eq!(
        boxes(&map.out),
        [
            "<g><title>000000 to 12300000, section, no access </title>\
             <rect class=\"k0\" x=\"96\" y=\"124\" width=\"1024\" height=\"24\"/>\
             <rect class=\"n\" x=\"96\" y=\"124\" width=\"1024\" height=\"24\"/></g>",
            "<g><title>100000 to 12400000, section, no access (1) </title>\
             <rect class=\"k0\" x=\"96\" y=\"180\" width=\"1024\" height=\"24\"/>\
             <rect class=\"n\" x=\"96\" y=\"180\" width=\"1024\" height=\"24\"/></g>",
            "<g><title>200000 to ABCDE000, small, no access (1) </title>\
             <rect class=\"k2\" x=\"96\" y=\"236\" width=\"4\" height=\"24\"/>\
             <rect class=\"n\" x=\"96\" y=\"236\" width=\"4\" height=\"24\"/></g>",
        ]
    );
    let picture = String::from_utf8(map.out).expect("text");
    assert!(picture.contains("<style>.n{") && picture.contains(">no access</text>"));
}

#[test]
fn written_by_hand() {
    let _turn = turn();
    let Some(root) = root() else { return };
    for row in written::accepted().iter().chain(&written::refused_ones()) {
        let said = agree(&root, &row.image, row.name).map_err(Refused::number);
        assert!(said == row.says, "{}: {said:x?}", row.name);
    }
    for length in [0, 4, 60, 64, 131_072, 131_073, 131_076] {
        for base in [0, BASE, 0xFFFE_0000, 0xFFFF_FF80] {
            let image = Image::written(base, length, &[]);
            let _ = agree(&root, &image, format_args!("{length} bytes at {base:x}"));
        }
    }
}

/// As many pages as there can be: sixteen megabytes of one table of tiny pages.
#[test]
fn the_fullest_image() {
    let _turn = turn();
    let Some(root) = root() else { return };
    let mut image = Image::written(BASE, 0x2000, &[(0, 16, BASE + 0x1003)]);
    for n in 0..1_024 {
        image.put(BASE + 0x1000 + 4 * n, n << 10 | (n % 4) << 4 | 3);
    }
    let says = agree(&root, &image, "sixteen megabytes").expect("accepted");
    let tiny = |n: u32| page(n << 10, (n % 1_024) << 10, 3, (n % 4) as u8);
    assert!(says.into_iter().eq((0..16_384).map(tiny)));
    let list = run(&root, &["list", "-", "20000000"], &image.memory);
    assert_eq!(list.out.split(|&byte| byte == b'\n').count(), 16_384 + 1);
}

// ---------------------------------------------------------------------------
// Images of the builder, and from the dice

/// What `nx list` gives of a list's image, `nx build` makes the image of again.
#[test]
fn given_back() {
    let _turn = turn();
    let Some(root) = root() else { return };
    let back = folder("given_back").join("image").display().to_string();
    for round in 0..20 * long() {
        let mut dice = Dice::new(seed(0x1A9E_0000_0000 + u64::from(round)));
        // In at most twelve megabytes: `nx build` has room for their tables.
        let list = match dice.pick(&[0, 0, 1, 14, 200, MOST_RECORDS]) {
            0 => lists::mixed(&mut dice),
            count => lists::exactly(&mut dice, count, &lists::ALL_KINDS, 12),
        };
        let any = dice.word() & 0x7FFF_F000;
        let base = dice.pick(&[0, BASE, any]);
        let image = Image::built(&Second, &lists::bytes(&list), base);
        let base = format!("{base:x}");
        let text = run(&root, &["list", "-", &base], &image.memory);
        assert_eq!((text.digit.as_str(), text.error.as_str()), ("0", ""), "list {round}");
        let built = run(&root, &["build", "-", &back, &base], &text.out);
        assert_eq!((built.digit.as_str(), built.error.as_str()), ("0", ""), "list {round}");
        assert!(fs::read(&back).expect("an image") == image.memory, "list {round}");
    }
}

/// Any bytes, tables that share words with others, and images with something amiss.
#[test]
fn from_the_dice() {
    let _turn = turn();
    let Some(root) = root() else { return };
    let mut seen = Coverage::default();
    for round in 0..300 * long() {
        let mut dice = Dice::new(seed(0x1A9D_0000_0000 + u64::from(round)));
        let mut image = match round % 3 {
            0 => Image::drawn(&mut dice),
            1 => Image::grouped(&mut dice),
            _ => Image::accepted(&mut dice),
        };
        // Now and then at another base, cut, or with another word.
        match dice.below(12) {
            0 => image.base ^= 1 << dice.below(32),
            1 => image.base = image.base.wrapping_add(dice.pick(&[64, 128, 0x400, 0x1000])),
            2 => image.memory.truncate(dice.below(image.memory.len() as u32) as usize),
            3 => image.memory.truncate(4 * dice.below(image.memory.len() as u32 / 4) as usize),
            4..=6 => {
                let at = 4 * dice.below(image.memory.len() as u32 / 4);
                put_word(&mut image.memory, at as usize, dice.word());
            }
            _ => {}
        }
        match agree(&root, &image, format_args!("image {round}")) {
            Ok(pages) => {
                seen.see("accepted");
                seen.see_if(pages.iter().any(|page| page.access < 2), "a page without access");
            }
            Err(Refused { refusal, .. }) => {
                seen.see(format!("refused {:02}", refusal as u32));
                for part in ["coarse", "fine", "large", "small", "is no multiple", "which has"] {
                    seen.see_if(why(&image).is_some_and(|why| why.contains(part)), part);
                }
            }
        }
    }
    let names = [
        "accepted",
        "a page without access",
        "refused 04",
        "refused 17",
        "refused 18",
        "coarse",
        "fine",
        "large",
        "small",
        "is no multiple",
    ];
    seen.demand(3, &names.map(String::from));
}

// ---------------------------------------------------------------------------
// Files and wrong use

/// What cannot be read or written is told, and the script's exit status is the digit.
#[test]
fn files_and_exit_status() {
    let _turn = turn();
    let Some(root) = root() else { return };
    let folder = folder("foreign_files");
    let path = |name: &str| folder.join(name).display().to_string();
    // Sixteen sections; sixteen coarse tables at 1010000, which are outside.
    let (good, bad) = (path("good"), path("bad"));
    fs::write(&good, [2; 64]).expect("a file");
    fs::write(&bad, [1; 64]).expect("a file");
    for command in ["check", "list", "map"] {
        for image in [&path("none"), &path("")] {
            let ran = run(&root, &[command, image, "20000000"], b"");
            assert_eq!((ran.digit.as_str(), &ran.out[..]), ("1", &[][..]), "{command}");
            assert!(ran.error.starts_with(image.as_str()), "{command}: {}", ran.error);
        }
        let words = ["-c", "tools/run nx \"$1\" \"$2\" 0 3>&1 >/dev/full 2>/dev/null", "sh"];
        let mut full = Command::new("sh");
        let full = full.args(words).args([command, &good]).current_dir(&root).output();
        assert_eq!(full.expect("sh starts").stdout, b"1", "{command}");
        for (words, status) in [
            (&[command, &good, "20000000"][..], 0),
            (&[command, &bad, "20000000"], 1),
            (&[command, &good, "20000001"], 1),
            (&[command, &good, "hex"], 2),
            (&[command, &good, "20000000", "0"], 2),
            (&[command], 2),
        ] {
            let ran = Command::new("./nx").args(words).current_dir(&root).output();
            let ran = ran.expect("nx starts");
            assert_eq!(ran.status.code(), Some(status), "{words:?}: {ran:?}");
            let told = status == 0 || (command == "check" && status == 1);
            assert_eq!((ran.stdout.is_empty(), ran.stderr.is_empty()), (!told, told), "{words:?}");
        }
    }
    // An image is no text: without a base `nx map` takes a list.
    for (command, status) in [("check", "2"), ("list", "2"), ("map", "1")] {
        let ran = run(&root, &[command, &bad], b"");
        assert_eq!((ran.digit.as_str(), &ran.out[..]), (status, &[][..]), "{command}");
    }
}
