//! Why a call is refused.

use std::error::Error;
use std::fmt;

/// The enum and all that is said of its numbers, from one table of number, name and message.
macro_rules! refusals {
    ($($number:literal $name:ident $message:literal)*) => {
        /// Why a call is refused. Its number is that of documents 01 and 02, of a printed frame and of `include/nuggetbay.h`; its
        /// message says which value was wrong and what is allowed. A later version may have more refusals.
        ///
        /// # Examples
        ///
        /// ```
        /// use nuggetbay::Refusal;
        ///
        /// let refusal = nuggetbay::final_class(5, 9, 0x0000).unwrap_err();
        /// assert_eq!(refusal, Refusal::FinalClass);
        /// assert_eq!(refusal.number(), 12);
        /// assert_eq!(refusal.to_string(), "refusal 12: final class too high: at most 7 is allowed");
        ///
        /// assert_eq!(Refusal::try_from(12), Ok(Refusal::FinalClass));
        /// assert!(Refusal::try_from(0).is_err());
        /// ```
        #[derive(Clone, Copy, Debug, PartialEq, Eq, Hash)]
        #[non_exhaustive]
        #[repr(u8)]
        pub enum Refusal {
            $(#[doc = concat!("Refusal ", $number, ", ", $message, ".")] $name = $number,)*
        }

        impl Refusal {
            /// Every refusal, in the order of their numbers.
            pub const ALL: &'static [Refusal] = &[$(Refusal::$name),*];

            /// Which value was wrong and what is allowed, in English.
            ///
            /// # Examples
            ///
            /// ```
            /// assert!(nuggetbay::Refusal::Mass.message().starts_with("mass out of range"));
            /// ```
            #[must_use]
            pub const fn message(self) -> &'static str {
                match self {
                    $(Refusal::$name => $message,)*
                }
            }
        }

        impl TryFrom<u8> for Refusal {
            type Error = NoSuchRefusal;

            fn try_from(number: u8) -> Result<Refusal, NoSuchRefusal> {
                match number {
                    $($number => Ok(Refusal::$name),)*
                    _ => Err(NoSuchRefusal(number)),
                }
            }
        }
    };
}

refusals! {
    1 Dimension "dimension out of range: 50 to 100,000 mm is allowed"
    2 Mass "mass out of range: 50 to 25,000,000 g is allowed"
    3 Speed "speed out of range: 0 to 40,000 cm/s is allowed"
    4 Area "critical area too large: at most 650,000,000 square centimetres is allowed"
    5 BufferLength "wrong buffer length: 4,096 counts and 64 footprint rows are needed"
    6 CellArea "cell area out of range: 100 to 25,000,000 square metres is allowed"
    7 Count "a head count is too large: at most 1,000,000 people a cell is allowed"
    8 NoCell "empty footprint: at least one marked cell is needed"
    9 ClassInput "wrong class table input: column 1 to 5, row 2 to 7, controlled mark 0 or 1 and a class of the column are allowed"
    10 NoClass "the class table has no class for this row and column: row 7 is allowed in columns 1 and 2 only"
    11 Mitigation "mitigation digit not offered: M1(A) 0 to 2, M1(B) 0, 2 or 3, M1(C) 0 or 1, M2 0, 2 or 3 is allowed"
    12 FinalClass "final class too high: at most 7 is allowed"
    13 TextLength "wrong text length: 33,959 bytes are needed"
    14 TextByte "wrong byte in the text: lower-case hexadecimal digits, and byte 10 at the end of each line, are allowed"
    15 FrameLength "frame buffer too short: at least 43 bytes are needed"
    16 FrontalDimension "no frontal area for this dimension: 1,000 to 40,000 mm is allowed"
    17 HeightOrBudget "height or step budget out of range: 1 to 50,000 cm and 1 to 20,000 steps are allowed"
    18 BudgetSpent "step budget spent before the ground is reached: more steps are needed, at most 20,000 are allowed"
    19 NegativeSpeed "a step makes a speed negative: too light for its frontal area and speed, more mass or less speed is needed for steps of 0.01 s"
    20 WantedColumn "wanted column out of range: 1 to 5 is allowed"
    21 NoneForColumn "no speed or mass in range gives this column or a lower one: a higher column, a smaller dimension or, for a mass, less speed is needed"
}

impl Refusal {
    /// The number, 1 or more.
    ///
    /// # Examples
    ///
    /// ```
    /// assert_eq!(nuggetbay::Refusal::FrameLength.number(), 15);
    /// ```
    #[must_use]
    pub const fn number(self) -> u8 {
        self as u8
    }
}

/// No number falls out of the table: it has 1, 2, 3, .. in order.
const _: () = {
    let mut i = 0;
    while i < Refusal::ALL.len() {
        assert!(Refusal::ALL[i] as usize == i + 1, "a refusal's number is left out or out of order");
        i += 1;
    }
};

impl fmt::Display for Refusal {
    fn fmt(&self, f: &mut fmt::Formatter<'_>) -> fmt::Result {
        write!(f, "refusal {}: {}", self.number(), self.message())
    }
}

impl Error for Refusal {}

impl From<Refusal> for u8 {
    fn from(refusal: Refusal) -> u8 {
        refusal.number()
    }
}

/// A number that no refusal has: 0, by which C says that nothing is refused, or one above the last.
///
/// # Examples
///
/// ```
/// let error = nuggetbay::Refusal::try_from(200).unwrap_err();
/// assert_eq!(error.number(), 200);
/// assert_eq!(error.to_string(), "no refusal has number 200");
/// ```
#[derive(Clone, Copy, Debug, PartialEq, Eq, Hash)]
pub struct NoSuchRefusal(u8);

impl NoSuchRefusal {
    /// The number.
    #[must_use]
    pub const fn number(self) -> u8 {
        self.0
    }
}

impl fmt::Display for NoSuchRefusal {
    fn fmt(&self, f: &mut fmt::Formatter<'_>) -> fmt::Result {
        write!(f, "no refusal has number {}", self.0)
    }
}

impl Error for NoSuchRefusal {}
