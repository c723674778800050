//! A refusal of each kind, 1 to 12, and of each call that is lent something to write: every slice
//! is compared with what it was.

use ticklocust::*;

/// What is lent to be written, with a pattern that no call would leave.
#[derive(Clone, Debug, PartialEq)]
struct Lent {
    out: Vec<u8>,
    work: Vec<u8>,
    cells: Vec<u32>,
    temperatures: Vec<f32>,
    ages: Vec<u8>,
}

impl Lent {
    fn new(level: u32) -> Lent {
        let (bytes, cells) = (mask_len(level).unwrap(), chart_len(level).unwrap());
        Lent {
            out: vec![0xA5; bytes],
            work: vec![0x5A; bytes],
            cells: vec![77; 16],
            temperatures: vec![-4.25; cells],
            ages: vec![9; cells],
        }
    }
}

/// Makes the call and sees that it is refused by `number` and that nothing was written.
fn refused<T: std::fmt::Debug>(
    number: u32,
    level: u32,
    call: impl FnOnce(&mut Lent) -> Result<T, Refusal>,
) {
    let mut lent = Lent::new(level);
    let before = lent.clone();
    let refusal = call(&mut lent).map(|given| panic!("accepted: {given:?}")).unwrap_err();
    assert_eq!(refusal.number(), number);
    assert_eq!(lent, before);
}

#[test]
fn a_refusal_of_each_kind() {
    refused(1, 1, |s| grow(9, 1, &[0; 4], &mut s.out, &mut s.work));
    refused(2, 0, |_| cell_at(1, Latitude(90_000_001), Longitude(180_000_000)));
    refused(3, 0, |_| cell_at(1, Latitude(0), Longitude(180_000_000)));
    refused(4, 1, |s| fill(1, &[0; 4], 32, &mut s.out));
    refused(5, 1, |s| join(1, &[0; 4], &[0; 3], &mut s.out));
    refused(6, 1, |s| shrink(1, 65, &[0; 4], &mut s.out, &mut s.work));
    refused(7, 0, |s| border_write(4, &[0, 200], &mut s.out).map(<[u8]>::len));
    refused(8, 0, |s| fill(0, &[1], 0, &mut s.out));
    refused(9, 0, |s| border_write(4, &[0; 4098], &mut s.out).map(<[u8]>::len));
    refused(9, 0, |s| border_read(&[4, 0, 0x81, 0x20], &mut s.cells).map(|border| border.level));
    refused(10, 0, |s| border_read(&[4, 0, 2], &mut s.cells).map(|border| border.level));
    refused(11, 0, |s| border_read(&[0x84, 0], &mut s.cells).map(|border| border.level));
    refused(12, 0, |s| border_read(&[4, 0, 2, 0x4B], &mut s.cells).map(|border| border.level));
}

#[test]
fn the_slices_of_every_call() {
    refused(5, 1, |s| grow(1, 1, &[0; 5], &mut s.out, &mut s.work));
    refused(5, 1, |s| grow(1, 1, &[0; 4], &mut s.out[1..], &mut s.work));
    refused(5, 1, |s| shrink(1, 1, &[0; 4], &mut s.out, &mut s.work[..3]));
    refused(5, 1, |s| fill(1, &[0; 4], 0, &mut s.out[..2]));
    refused(5, 0, |_| count(0, &[]));
    refused(5, 0, |_| within(0, &[1], &[1, 1]));
    refused(5, 0, |s| border_write(4, &[], &mut s.out).map(<[u8]>::len));
    refused(5, 0, |s| border_write(4, &[0, 13, 3], &mut s.out).map(<[u8]>::len));
    refused(5, 0, |s| border_read(&[4, 0, 2, 0x0B], &mut s.cells[..2]).map(|b| b.level));
    refused(7, 0, |s| border_read(&[4, 0, 1, 5], &mut s.cells).map(|b| b.level));
    refused(5, 0, |s| day(0, 30, &[1.0; 7], &[0], &mut s.temperatures, &mut s.ages));
    refused(5, 0, |s| day(0, 30, &[1.0; 8], &[], &mut s.temperatures, &mut s.ages));
    refused(5, 0, |s| day(0, 30, &[1.0; 8], &[0], &mut s.temperatures[1..], &mut s.ages));
    refused(5, 0, |s| day(0, 30, &[1.0; 8], &[0], &mut s.temperatures, &mut s.ages[1..]));
    refused(6, 0, |s| day(0, 31, &[1.0; 8], &[0], &mut s.temperatures, &mut s.ages));
    refused(1, 0, |s| day(9, 31, &[1.0; 8], &[0], &mut s.temperatures, &mut s.ages));
    refused(4, 0, |s| reading(0, 8, &s.temperatures[1..], &s.ages));
    refused(5, 0, |s| reading(0, 7, &s.temperatures[1..], &s.ages));
    refused(4, 0, |_| touching(0, 8));
    refused(7, 0, |_| step(0, 0, 8));
    refused(7, 0, |_| code(0, 0, 6));
    refused(4, 0, |_| centre(14, u32::MAX));
}

#[test]
fn borders_come_back_as_they_were_written() {
    let (mut stored, mut cells) = ([0xEE; MAX_BORDER_BYTES], [7; MAX_BORDER_CELLS]);
    // Eastwards along an octant's row, and back.
    let mut border = vec![cell_at(14, Latitude(1), Longitude(1)).unwrap()];
    for i in 0..MAX_CODES {
        let code = if i < MAX_CODES / 2 { 3 } else { 4 };
        border.push(step(14, border[i], code).unwrap());
    }
    let bytes = border_write(14, &border, &mut stored).unwrap();
    let read = border_read(bytes, &mut cells).unwrap();
    assert_eq!((read.level, read.cells), (14, &border[..]));
}

#[test]
fn a_value_that_is_no_number_leaves_a_gap() {
    let odd = f32::from_bits(0x7FC0_1234);
    let (mut temperatures, mut ages) = ([odd; 8], [0; 8]);
    let summary = day(0, 30, &[odd; 8], &[0], &mut temperatures, &mut ages).unwrap();
    assert_eq!(summary, Summary { count: 0, coldest: 0.0, warmest: 0.0 });
    assert!(temperatures.iter().all(|t| t.to_bits() == 0));
    assert_eq!(ages, [255; 8]);
    assert_eq!(reading(0, 0, &temperatures, &ages), Ok(Reading::Gap));
}
