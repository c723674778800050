//! `chart new`, `chart import`, `chart export`, `chart info`, `chart list`, `reading`.

use crate::Folder;

pub fn floats(temperatures: &[f32]) -> Vec<u8> {
    temperatures.iter().flat_map(|t| t.to_le_bytes()).collect()
}

/// A level 0 chart `c` of these temperatures and ages as of 2026-03-08.
fn chart(temperatures: &[f32; 8], ages: [u8; 8]) -> Folder {
    let folder = Folder::new();
    folder.put("t", &floats(temperatures));
    folder.put("a", &ages);
    folder.prints("chart import --date 2026-03-08 t a c", "");
    folder
}

#[test]
fn readings_have_kind_degrees_days_and_date() {
    let temperatures = [21.0, 21.0, 21.5, f32::NAN, 45.5, 21.0, -5.0, 0.0];
    let folder = chart(&temperatures, [0, 1, 30, 0, 0, 31, 255, 0]);
    let said = [
        "fresh 21.0 °C, chart of 2026-03-08",
        "carried 21.0 °C, 1 day, chart of 2026-03-08",
        "carried 21.5 °C, 30 days, chart of 2026-03-08",
        "gap, chart of 2026-03-08",
        "gap, chart of 2026-03-08",
        "gap, chart of 2026-03-08",
        "gap, chart of 2026-03-08",
        "fresh 0.0 °C, chart of 2026-03-08",
    ];
    for (cell, said) in said.iter().enumerate() {
        folder.prints(&format!("reading {cell} c"), &format!("{said}\n"));
    }
    assert!(folder.refused("reading 8 c", 4).ends_with("(level 0 has 8 cells)"));
    let said = folder.run(&["reading", "2", "-"], &folder.get("c"));
    assert_eq!(said.out, "carried 21.5 °C, 30 days, chart of 2026-03-08\n".as_bytes());
}

#[test]
fn a_new_chart_is_all_gaps_of_its_date() {
    let folder = Folder::new();
    folder.prints("chart new --level 1 --date 2024-02-29 c", "");
    folder.prints("chart info c", "date 2024-02-29\nlevel 1\nfresh 0\ncarried 0\ngap 32\n");
    folder.prints("reading 31 c", "gap, chart of 2024-02-29\n");
    folder.prints("chart export c t a", "");
    assert_eq!((folder.get("t"), folder.get("a")), (vec![0; 128], vec![255; 32]));
    assert_eq!(folder.get("c").len(), 36 + 5 * 32);
    let sentence = folder.refused("chart new --level 9 --date 2024-02-29 d", 1);
    assert_eq!(sentence, "the level is above 8, the bound for masks and charts");
    folder.wrong_line("chart new --level 1 --date 2024-03-01 c", "c: is there already; remove it");
    folder.wrong_line("chart new --level 1 d", "--date is missing");
    folder.wrong_line("chart new --level 1 --date 2023-02-29 d", "not '2023-02-29'");
}

#[test]
fn arrays_come_back_bit_for_bit() {
    let odd = f32::from_bits(0x7FC0_1234);
    let temperatures = [odd, f32::INFINITY, -0.0, 1e-45, 45.5, 21.0, -5.0, 16.5];
    let folder = chart(&temperatures, [0, 1, 30, 31, 254, 255, 7, 8]);
    folder.prints("chart export c t2 a2", "");
    assert_eq!(folder.get("t2"), floats(&temperatures));
    assert_eq!(folder.get("a2"), [0, 1, 30, 31, 254, 255, 7, 8]);
    let said = folder.run(&["chart", "export", "-", "t3", "-"], &folder.get("c"));
    assert_eq!((said.status, said.out), (0, folder.get("a2")));
}

#[test]
fn arrays_of_other_lengths_are_refused() {
    let folder = chart(&[21.0; 8], [0; 8]);
    folder.put("short", &floats(&[21.0; 7]));
    let sentence = folder.refused("chart import --date 2026-03-08 short a d", 5);
    assert!(sentence.ends_with("(level 0: short has 28 bytes, not 32)"), "{sentence}");
    folder.refused("chart import --date 2026-03-08 t short d", 5);
    folder.refused("chart import --date 2026-03-08 --level 1 t a d", 5);
    folder.refused("chart import --date 2026-03-08 --level 9 t a d", 1);
    folder.refused("chart import --date 2026-03-08 /dev/zero /dev/zero d", 5);
    // A file that ends within a temperature.
    folder.put("t", &floats(&[21.0; 9])[..33]);
    folder.refused("chart import --date 2026-03-08 t a d", 5);
}

#[test]
fn the_list_of_a_chart() {
    let temperatures = [21.0, 16.25, 21.5, f32::NAN, 45.5, 21.0, -5.0, 0.0];
    let folder = chart(&temperatures, [0, 1, 30, 0, 0, 31, 4, 255]);
    folder.prints(
        "chart list c",
        "cell\tlatitude\tlongitude\tkind\ttemperature\tdays\n\
         0\t30.000000\t45.000000\tfresh\t21.0\t0\n\
         1\t30.000000\t135.000000\tcarried\t16.25\t1\n\
         2\t30.000000\t-135.000000\tcarried\t21.5\t30\n\
         3\t30.000000\t-45.000000\tgap\t\t\n\
         4\t-30.000000\t45.000000\tgap\t\t\n\
         5\t-30.000000\t135.000000\tgap\t\t\n\
         6\t-30.000000\t-135.000000\tcarried\t-5.0\t4\n\
         7\t-30.000000\t-45.000000\tgap\t\t\n",
    );
    folder.prints(
        "chart info c",
        "date 2026-03-08\nlevel 0\nfresh 1\ncarried 3\ngap 4\n\
         carried-days 1 1\ncarried-days 4 1\ncarried-days 30 1\n",
    );
}
