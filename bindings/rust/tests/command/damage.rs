//! Damaged chart files: a clear error that names the file, and nothing is written.

use crate::days::begun;
use crate::Folder;

/// Every subcommand that reads a chart refuses `c` with these words, and leaves all files.
fn told(folder: &Folder, reason: &str) {
    for line in [
        "chart info c",
        "chart list c",
        "chart export c t2 a2",
        "reading 0 c",
        "day --rings 0 --limit 30 --date 2026-03-09 news cloud c",
        "day --rings 0 --limit 30 --date 2026-03-09 news cloud c --to d",
    ] {
        folder.wrong_line(line, &format!("ticklocust: c: {reason}"));
    }
}

#[test]
fn a_bit_flipped_in_each_region() {
    let regions = [
        ("the magic", 3, "is not a chart file ('ticklocust chart import' makes one"),
        ("the version", 8, "is a chart file of version 0; this command reads version 1"),
        (
            "the level",
            12,
            "is a damaged chart file: a chart of level 1 has 196 bytes, and it has 76",
        ),
        ("the level's high byte", 15, "is a damaged chart file: it names level 16777216"),
        ("the date", 25, "is a damaged chart file: its checksum doesn't match its bytes"),
        ("the zeros after it", 31, "is a damaged chart file: its checksum doesn't match"),
        ("a temperature", 35, "is a damaged chart file: its checksum doesn't match"),
        ("an age", 70, "is a damaged chart file: its checksum doesn't match"),
        ("the checksum", 75, "is a damaged chart file: its checksum doesn't match"),
    ];
    for (region, at, reason) in regions {
        let folder = begun();
        let mut bytes = folder.get("c");
        bytes[at] ^= 1;
        folder.put("c", &bytes);
        println!("{region}");
        told(&folder, reason);
    }
}

#[test]
fn cut_in_each_region() {
    let folder = begun();
    let bytes = folder.get("c");
    let cuts = [
        (0, "is not a chart file"),
        (5, "is a damaged chart file: it ends after 5 bytes, within its header"),
        (8, "is a damaged chart file: it ends after 8 bytes, within its header"),
        (14, "is a damaged chart file: it ends after 14 bytes, within its header"),
        (31, "is a damaged chart file: it ends after 31 bytes, within its header"),
        (32, "is a damaged chart file: a chart of level 0 has 76 bytes, and it has 32"),
        (50, "is a damaged chart file: a chart of level 0 has 76 bytes, and it has 50"),
        (70, "is a damaged chart file: a chart of level 0 has 76 bytes, and it has 70"),
        (75, "is a damaged chart file: a chart of level 0 has 76 bytes, and it has 75"),
    ];
    for (length, reason) in cuts {
        folder.put("c", &bytes[..length]);
        told(&folder, reason);
    }
    folder.put("c", &[&bytes[..], &[0]].concat());
    told(&folder, "is a damaged chart file: a chart of level 0 has 76 bytes, and it has 77");
    folder.put("c", &[&bytes[..], &vec![0; 3_000_000]].concat());
    told(&folder, "is a damaged chart file: a chart of level 0 has 76 bytes, and it has more than");
}

#[test]
fn another_version_or_no_chart_at_all() {
    let folder = begun();
    let bytes = folder.get("c");
    folder.put("c", &[&bytes[..8], &[2], &bytes[9..]].concat());
    told(&folder, "is a chart file of version 2; this command reads version 1");
    folder.put("c", &folder.get("t"));
    told(&folder, "is not a chart file");
    folder.wrong(&["chart", "info", "/dev/zero"], "/dev/zero: is not a chart file");
}

#[test]
fn a_right_checksum_over_a_wrong_date() {
    let folder = begun();
    let mut bytes = folder.get("c");
    for (date, checksum) in WRONG_DATES {
        bytes[16..32].copy_from_slice(date);
        bytes[72..].copy_from_slice(&checksum.to_le_bytes());
        folder.put("c", &bytes);
        told(&folder, "is a damaged chart file: its date is not one of the calendar");
    }
}

/// With the checksums that `zlib.crc32` gives for them.
const WRONG_DATES: [(&[u8; 16], u32); 2] =
    [(b"2026-02-29\0\0\0\0\0\0", 0x2583_3FB7), (b"2026-03-08\0\0\0\0\0x", 0xC176_C69E)];
