//! Why a call is refused.

use std::error::Error;
use std::fmt;

/// Why a call was refused. A refused call has written nothing.
///
/// [`number`](Refusal::number) is the number in the table of refused calls (docs/RULES.md, 9): one
/// for each refusal, the same in every language and program of the project. It is displayed as a
/// sentence.
///
/// ```
/// use ticklocust::Refusal;
///
/// let refused = ticklocust::count(9, &[]).unwrap_err();
/// assert_eq!(refused, Refusal::Level);
/// assert_eq!(refused.number(), 1);
/// assert_eq!(
///     refused.to_string(),
///     "the level is above its bound: 14 for cells and borders, 8 for masks and charts"
/// );
/// ```
#[derive(Clone, Copy, Debug, PartialEq, Eq, Hash, PartialOrd, Ord)]
#[repr(u8)]
pub enum Refusal {
    /// 1: the level is above its bound.
    Level = 1,
    /// 2: the latitude is outside its range.
    Latitude = 2,
    /// 3: the longitude is outside its range.
    Longitude = 3,
    /// 4: the cell number is not below 8 × 4^level.
    Cell = 4,
    /// 5: a slice is not of its exact length; for borders it is too short, or there are no cells.
    Length = 5,
    /// 6: the rings are above 64, or the days above 30.
    Count = 6,
    /// 7: there is no such step: the code is above 7 or absent there, or no code joins the two
    /// cells.
    Step = 7,
    /// 8: the outside cell is marked.
    Outside = 8,
    /// 9: there are more than 4,096 codes.
    Codes = 9,
    /// 10: the bytes end early.
    Short = 10,
    /// 11: a stored number is not in its form.
    Form = 11,
    /// 12: pad bits are not zero, or bytes are left over.
    Rest = 12,
}

impl Refusal {
    /// All refusals, in the order of their numbers.
    pub const ALL: [Refusal; 12] = [
        Refusal::Level,
        Refusal::Latitude,
        Refusal::Longitude,
        Refusal::Cell,
        Refusal::Length,
        Refusal::Count,
        Refusal::Step,
        Refusal::Outside,
        Refusal::Codes,
        Refusal::Short,
        Refusal::Form,
        Refusal::Rest,
    ];

    /// The number in the table of docs/RULES.md, 9: 1 to 12.
    #[must_use]
    pub const fn number(self) -> u32 {
        self as u32
    }

    /// The refusal with a number, if there is one.
    ///
    /// ```
    /// use ticklocust::Refusal;
    ///
    /// assert_eq!(Refusal::from_number(7), Some(Refusal::Step));
    /// assert_eq!(Refusal::from_number(0), None);
    /// ```
    #[must_use]
    pub fn from_number(number: u32) -> Option<Refusal> {
        Refusal::ALL.into_iter().find(|refusal| refusal.number() == number)
    }
}

impl fmt::Display for Refusal {
    fn fmt(&self, f: &mut fmt::Formatter<'_>) -> fmt::Result {
        f.write_str(match self {
            Refusal::Level => {
                "the level is above its bound: 14 for cells and borders, 8 for masks and charts"
            }
            Refusal::Latitude => {
                "the latitude is outside its range: -90000000 to 90000000 millionths of a degree"
            }
            Refusal::Longitude => {
                "the longitude is outside its range: -180000000 to 179999999 millionths of a degree"
            }
            Refusal::Cell => "the cell number is not below 8 x 4^level",
            Refusal::Length => {
                "a slice is not of its exact length; for borders it is too short, \
                 or there are no cells"
            }
            Refusal::Count => "the rings are above 64, or the days above 30",
            Refusal::Step => {
                "there is no such step: the code is above 7 or absent there, \
                 or no code joins the two cells"
            }
            Refusal::Outside => "the outside cell is marked",
            Refusal::Codes => "there are more than 4096 codes",
            Refusal::Short => "the bytes end early",
            Refusal::Form => {
                "a stored number is not in its form: shortest, at most five bytes, below 2^32"
            }
            Refusal::Rest => "pad bits are not zero, or bytes are left over",
        })
    }
}

impl Error for Refusal {}

#[cfg(test)]
mod tests {
    use super::Refusal;

    #[test]
    fn numbers_are_1_to_12_in_order() {
        let numbers: Vec<u32> = Refusal::ALL.iter().map(|refusal| refusal.number()).collect();
        assert_eq!(numbers, (1..=12).collect::<Vec<u32>>());
        for refusal in Refusal::ALL {
            assert_eq!(Refusal::from_number(refusal.number()), Some(refusal));
        }
        assert_eq!(Refusal::from_number(13), None);
    }

    #[test]
    fn each_has_a_sentence_of_its_own() {
        let mut said: Vec<String> = Refusal::ALL.iter().map(Refusal::to_string).collect();
        assert!(said.iter().all(|sentence| sentence.len() > 15 && !sentence.contains('\n')));
        said.sort();
        said.dedup();
        assert_eq!(said.len(), 12);
    }
}
