//! `grow`, `shrink`, `join`, `count`, `within`, `fill`, and the borders.

use crate::Folder;

#[test]
fn worked_masks() {
    let folder = Folder::new();
    folder.put("one", &[1]);
    folder.prints("grow --rings 1 one grown", "");
    assert_eq!(folder.get("grown"), [191]);
    folder.prints("shrink --rings 1 grown shrunk", "");
    assert_eq!(folder.get("shrunk"), [1]);
    folder.put("a", &[1, 0, 0, 0x80]);
    folder.put("b", &[1, 0, 4, 0]);
    folder.prints("join a b joined", "");
    assert_eq!(folder.get("joined"), [1, 0, 4, 0x80]);
    folder.prints("count joined", "3\n");
    folder.prints("within a joined", "yes\n");
    let said = folder.run(&["within", "joined", "a"], &[]);
    assert_eq!((said.status, said.out, said.err.as_str()), (1, b"no 18\n".to_vec(), ""));
    folder.wrong_line("within a absent", "absent: No such file");
    folder.refused("within a one", 5);
    folder.put("border", &[0b0001_1010]);
    folder.prints("fill --outside 6 border filled", "");
    assert_eq!(folder.get("filled"), [0b0001_1011]);
    // The worked example of the ring counter.
    let mut mask = [0; 1024];
    mask[0] = 1;
    folder.put("m5", &mask);
    folder.prints("grow --rings 1 m5 grown", "");
    folder.prints("count --level 5 grown", "13\n");
}

#[test]
fn refused_masks() {
    let folder = Folder::new();
    folder.put("m1", &[255; 4]);
    folder.put("m3", &[255; 3]);
    folder.put("m0", &[]);
    folder.put("long", &vec![0; 65_537]);
    folder.put("out", b"as it was");
    let sentence = folder.refused("grow --rings 1 --level 9 m1 out", 1);
    assert_eq!(sentence, "the level is above 8, the bound for masks and charts");
    folder.refused("grow --rings 1 --level 0 m1 out", 5);
    folder.refused("grow --rings 1 m3 out", 5);
    assert_eq!(folder.refused("shrink --rings 65 m1 out", 6), "there are more than 64 rings");
    folder.refused("shrink --rings 65 m3 out", 5);
    folder.refused("join m1 m3 out", 5);
    folder.refused("join m1 m1 --level 2 out", 5);
    folder.refused("count m0", 5);
    folder.refused("count long", 5);
    folder.refused("within m1 m0", 5);
    let sentence = folder.refused("fill --outside 32 m1 out", 4);
    assert!(sentence.ends_with("(level 1 has 32 cells)"), "{sentence}");
    folder.refused("fill --outside 0 m1 out", 8);
    let sentence = folder.refused("count long", 5);
    assert!(
        sentence.ends_with("(level 8: long has more than 65536 bytes, not 65536)"),
        "{sentence}"
    );
    let sentence = folder.refused("mask and m1 m3 out", 5);
    assert!(sentence.ends_with("(level 1: m3 has 3 bytes, not 4)"), "{sentence}");
    folder.refused("mask minus m3 m1 out", 5);
    folder.refused("mask not m3 out", 5);
    folder.refused("mask list m0", 5);
}

#[test]
fn sets_of_cells() {
    let folder = Folder::new();
    folder.answers("mask mark --level 1 a", "0\n\n 9 \r\n9\n31\n", "");
    assert_eq!(folder.get("a"), [1, 2, 0, 0x80]);
    folder.prints("mask list a", "0\n9\n31\n");
    folder.put("b", &[0xFF, 0, 1, 0x80]);
    folder.prints("mask and a b and", "");
    assert_eq!(folder.get("and"), [1, 0, 0, 0x80]);
    folder.prints("mask minus a b minus", "");
    assert_eq!(folder.get("minus"), [0, 2, 0, 0]);
    folder.prints("mask not a not", "");
    assert_eq!(folder.get("not"), [0xFE, 0xFD, 0xFF, 0x7F]);
    folder.answers("mask mark --level 0 none", "", "");
    folder.prints("mask list none", "");
}

#[test]
fn cells_that_cant_be_marked() {
    let folder = Folder::new();
    let mark =
        |level: &str, input: &[u8]| folder.run(&["mask", "mark", "--level", level, "out"], input);
    let said = mark("0", b"7\n8\n");
    assert_eq!(
        said.err,
        "refused 4: the cell number is not below 8 x 4^level (level 0 has 8 cells; line 2)\n"
    );
    assert_eq!(said.status, 3);
    assert_eq!(
        mark("9", b"").err,
        "refused 1: the level is above 8, the bound for masks and charts\n"
    );
    let said = mark("0", b"1\n\n1 2\n");
    assert!(said.err.starts_with("ticklocust: line 3 is a whole number"), "{}", said.err);
    for endless in [vec![b'7'; 5000], vec![0; 5000], vec![0xFF, b'\n']] {
        let said = mark("0", &endless);
        assert!(
            said.err.contains("standard input: line 1 is not a line of numbers"),
            "{}",
            said.err
        );
        assert_eq!(said.status, 2);
    }
    assert!(folder.all().is_empty());
}

#[test]
fn borders() {
    let folder = Folder::new();
    folder.put("stored", &[0x04, 0x00, 0x02, 0x0B]);
    folder.prints("border read stored", "level 4\n0\n13\n3\n");
    folder.prints("border read stored text", "");
    folder.prints("border write text again", "");
    assert_eq!(folder.get("again"), folder.get("stored"));
    folder.put("bare", b"0\n13\n3\n");
    folder.prints("border write bare again --level 4", "");
    assert_eq!(folder.get("again"), folder.get("stored"));
    let words = ["border", "write", "bare", "again"];
    folder.wrong(&words, "no line 'level K', and --level is not given");
    folder.put("bare", b"level 4\n0\nthirteen\n");
    folder.wrong(&words, "line 3 is a whole number, written in digits, not 'thirteen'");
    folder.prints("border mask stored mask", "");
    assert_eq!(folder.get("mask").len(), 256);
    folder.prints("mask list mask", "0\n3\n13\n");
    folder.put("stored", &[9, 0, 0]);
    let sentence = folder.refused("border mask stored out", 1);
    assert_eq!(sentence, "the level is above 8, the bound for masks and charts");
}

#[test]
fn refused_borders() {
    let folder = Folder::new();
    folder.put("out", b"as it was");
    let stored: [(u32, &[u8]); 8] = [
        (1, &[15, 0, 0]),
        (4, &[0, 8, 0]),
        (7, &[4, 0, 1, 5]),
        (9, &[4, 0, 0x81, 0x20]),
        (10, &[4, 0, 2]),
        (11, &[0x84, 0]),
        (12, &[4, 0, 2, 0x4B]),
        (12, &[4, 0, 0, 0]),
    ];
    for (number, bytes) in stored {
        folder.put("stored", bytes);
        folder.refused("border read stored out", number);
    }
    folder.put("stored", &[[4, 0, 0].as_slice(), &[0; 5000]].concat());
    folder.refused("border read stored out", 12);
    let texts = [
        (1, "level 15\n0\n", "the level is above 14, the bound for cells and borders"),
        (4, "level 0\n7\n\n8\n", "(level 0 has 8 cells; line 4)"),
        (4, "level 0\n99999999999\n", "(level 0 has 8 cells; line 2)"),
        (5, "level 0\n", "the border has no cells"),
        (7, "level 4\n0\n13\n200\n", "there is no such step: no code joins 13 and 200 (line 4)"),
    ];
    for (number, text, told) in texts {
        folder.put("text", text.as_bytes());
        let sentence = folder.refused("border write text out", number);
        assert!(sentence.ends_with(told), "{sentence}");
    }
    folder.put("text", ("level 4\n".to_string() + &"0\n".repeat(4098)).as_bytes());
    let sentence = folder.refused("border write text out", 9);
    assert_eq!(sentence, "there are more than 4096 codes (line 4099)");
}
