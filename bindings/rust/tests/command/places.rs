//! `cell`, `centre`, `step`, `code`, `touching`.

use crate::Folder;

#[test]
fn worked_cells() {
    let folder = Folder::new();
    folder.prints("cell --level 1 --latitude 22500000 --longitude 30000000", "0\n");
    folder.prints("cell --longitude 29999999 --latitude=22500000 --level=1", "2\n");
    folder.prints("cell --level 14 --latitude -1 --longitude 0", "1252698794\n");
    folder.prints("cell --level 1 --latitude 90000000 --longitude -180000000", "9\n");
    folder.prints("centre --level 0 7", "latitude -30000000\nlongitude -45000000\n");
    folder.prints("centre --level 1 2", "latitude 15000000\nlongitude 18000000\n");
    folder.prints("step --level 4 187 T", "1211\n");
    folder.prints("step --level 4 187 5", "1211\n");
    folder.prints("step --level 4 0 t", "1\n");
    folder.prints("code --level 4 187 1211", "5 T\n");
    folder.prints("code --level 4 0 1", "0 t\n");
    folder.prints("touching --level 0 0", "1\n2\n3\n4\n5\n7\n");
}

#[test]
fn refused_places() {
    let folder = Folder::new();
    let sentence = folder.refused("cell --level 15 --latitude 0 --longitude 0", 1);
    assert_eq!(sentence, "the level is above 14, the bound for cells and borders");
    folder.refused("cell --level 1 --latitude 90000001 --longitude 180000000", 2);
    folder.refused("cell --level 1 --latitude 0 --longitude 180000000", 3);
    let sentence = folder.refused("centre --level 1 32", 4);
    assert_eq!(sentence, "the cell number is not below 8 x 4^level (level 1 has 32 cells)");
    folder.refused("touching --level 1 32", 4);
    let none = "there is no such step:";
    let sentence = folder.refused("step --level 4 187 t", 7);
    assert_eq!(sentence, format!("{none} cell 187 has no code t"));
    let sentence = folder.refused("step --level 4 187 8", 7);
    assert_eq!(sentence, format!("{none} cell 187 has no code 8"));
    let sentence = folder.refused("code --level 4 187 187", 7);
    assert_eq!(sentence, format!("{none} no code joins 187 and 187"));
    folder.refused("code --level 4 187 9999", 4);
}

#[test]
fn degrees_and_millionths() {
    let folder = Folder::new();
    let cell = |latitude: &str, longitude: &str| {
        format!("cell --level 14 --latitude {latitude} --longitude {longitude}")
    };
    folder.prints(&cell("-0.000001", "0.0"), "1252698794\n");
    folder.prints(&cell("-1", "0"), "1252698794\n");
    folder.prints("cell --level 1 --latitude 22.5 --longitude 29.999999", "2\n");
    folder.prints("cell --level 1 --latitude 22.5000000 --longitude +30.0", "0\n");
    folder.refused(&cell("90.000001", "0.0"), 2);
    folder.refused(&cell("0.0", "180.0"), 3);
    // A position is in one unit: 30 beside 22.5 would lie at 30 millionths.
    folder.wrong_line(
        &cell("22.5", "30"),
        "--longitude 30 is in millionths of a degree, and 22.5 is in degrees: write both the same \
         way, as 30.0 for 30 degrees",
    );
    folder.wrong_line(&cell("0", "30.0"), "--latitude 0 is in millionths of a degree");
}

#[test]
fn lines_of_standard_input() {
    let folder = Folder::new();
    folder.answers("cell --level 1 -", "22.5 30.0\n\n22500000\t29999999\r\n", "0\n2\n");
    folder.answers("centre --level 1 -", "2\n0", "15000000 18000000\n30000000 45000000\n");
    folder.answers("cell --level 1 -", "15000000 18000000\n30000000 45000000\n", "2\n0\n");
    folder.answers("cell --level 1 -", "", "");
    let said = folder.run(&["cell", "--level", "1", "-"], b"0.0 0.0\n0.0 180.0\n");
    assert!(
        said.err.starts_with("refused 3: ") && said.err.ends_with(" (line 2)\n"),
        "{}",
        said.err
    );
    assert_eq!((said.status, said.out), (3, Vec::new()));
    let said = folder.run(&["centre", "--level", "1", "-"], b"0\n1\n32\n");
    assert!(
        said.err.starts_with("refused 4: ")
            && said.err.ends_with(" (level 1 has 32 cells; line 3)\n"),
        "{}",
        said.err
    );
    let said = folder.run(&["cell", "--level", "1", "-"], b"0.0\n");
    assert!(said.err.contains("line 1 is a latitude and a longitude"), "{}", said.err);
    let said = folder.run(&["cell", "--level", "1", "-"], b"0.0 1.23456789\n");
    assert!(said.err.contains("line 1: the longitude has more than six decimals"), "{}", said.err);
    folder.wrong_line(
        "cell --level 1 --latitude 0 -",
        "by options or on standard input, not by both",
    );
    folder.wrong_line("cell --level 1 positions", "there is no use for 'positions'");
}

#[test]
fn numbers_past_32_bits_are_refused_like_others() {
    let folder = Folder::new();
    folder.refused("cell --level 4294967297 --latitude 0 --longitude 0", 1);
    folder.refused("cell --level 1 --latitude 99999999999 --longitude 0", 2);
    folder.refused("cell --level 1 --latitude 0 --longitude -99999999999", 3);
    folder.refused("centre --level 1 99999999999", 4);
    folder.refused("step --level 1 0 99999999999", 7);
}

#[test]
fn bad_numbers_are_explained() {
    let folder = Folder::new();
    let at = |latitude| ["cell", "--level", "1", "--latitude", latitude, "--longitude", "0"];
    folder.wrong(&at("22.1234567"), "--latitude has more than six decimals");
    folder.wrong(&at("22."), "degrees with a decimal point (22.5) or whole millionths of a degree");
    folder.wrong(&at(""), "not ''");
    folder.wrong(&at("20N"), "south and west negative");
    folder.wrong(&["cell", "--level", "1", "--latitude", "0"], "--longitude is missing");
    folder.wrong(&["centre", "--level", "one", "0"], "--level is a whole number");
    folder.wrong(&["centre", "--level", "1", "-1"], "CELL is a whole number");
    folder.wrong(&["step", "--level", "4", "0", "q"], "CODE is one of t l r e w T E W");
}
