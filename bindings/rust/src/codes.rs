//! The codes that refuse.

use crate::raw;
use std::fmt;

macro_rules! refusals {
    ($($name:ident = $code:ident,)*) => {
        /// Why a command or a call is refused. The words are those of the library.
        ///
        /// ```
        /// use zelvorm::Refusal;
        ///
        /// assert_eq!(Refusal::NoAccount.code(), 2);
        /// assert_eq!(Refusal::NoAccount.to_string(), "code 2: no such account");
        /// ```
        #[derive(Clone, Copy, Debug, PartialEq, Eq, Hash)]
        #[repr(u32)]
        pub enum Refusal {
            $(#[doc = concat!("[`raw::", stringify!($code), "`]")] $name = raw::$code,)*
        }

        impl Refusal {
            /// Every refusal, by its code.
            pub const ALL: &'static [Refusal] = &[$(Refusal::$name,)*];

            /// The refusal with this code. 0 is none, and neither is a number that is no code.
            pub const fn of(code: u32) -> Option<Refusal> {
                match code {
                    $(raw::$code => Some(Refusal::$name),)*
                    _ => None,
                }
            }
        }
    };
}

refusals! {
    Malformed = CODE_MALFORMED,
    NoAccount = CODE_NO_ACCOUNT,
    NoContract = CODE_NO_CONTRACT,
    PhaseForbids = CODE_PHASE_FORBIDS,
    Lots = CODE_LOTS,
    Conditions = CODE_CONDITIONS,
    Price = CODE_PRICE,
    Holding = CODE_HOLDING,
    Margin = CODE_MARGIN,
    NumbersUsedUp = CODE_NUMBERS_USED_UP,
    NotFillable = CODE_NOT_FILLABLE,
    NoRoomForTrades = CODE_NO_ROOM_FOR_TRADES,
    SideFull = CODE_SIDE_FULL,
    NoOrder = CODE_NO_ORDER,
    OrderOfAnother = CODE_ORDER_OF_ANOTHER,
    Amount = CODE_AMOUNT,
    PhaseChange = CODE_PHASE_CHANGE,
    NotClosed = CODE_NOT_CLOSED,
    SettlementsUsedUp = CODE_SETTLEMENTS_USED_UP,
    BrokenFile = CODE_BROKEN_FILE,
    NotWellFormed = CODE_NOT_WELL_FORMED,
    Bundle = CODE_BUNDLE,
    NotAMaker = CODE_NOT_A_MAKER,
    QuotePrices = CODE_QUOTE_PRICES,
    Clients = CODE_CLIENTS,
    Postings = CODE_POSTINGS,
    ClientHolding = CODE_CLIENT_HOLDING,
    NotWritable = CODE_NOT_WRITABLE,
    AreaTooShort = CODE_AREA_TOO_SHORT,
    TotalsDiffer = CODE_TOTALS_DIFFER,
}

impl Refusal {
    /// Its code.
    pub const fn code(self) -> u32 {
        self as u32
    }

    /// What it says.
    pub const fn words(self) -> &'static str {
        raw::code_words(self.code())
    }
}

impl fmt::Display for Refusal {
    fn fmt(&self, f: &mut fmt::Formatter<'_>) -> fmt::Result {
        write!(f, "code {}: {}", self.code(), self.words())
    }
}

impl std::error::Error for Refusal {}

/// `made` where the code is 0.
#[inline]
pub(crate) fn accepted<T>(code: u32, made: impl FnOnce() -> T) -> Result<T, Refusal> {
    if code == raw::CODE_ACCEPTED {
        Ok(made())
    } else {
        Err(refusal(code))
    }
}

fn refusal(code: u32) -> Refusal {
    let unknown = || panic!("code {code} is none of version {}: library and crate are of two versions", raw::VERSION);
    Refusal::of(code).unwrap_or_else(unknown)
}

#[cfg(test)]
mod tests {
    use super::*;

    #[test]
    fn every_code_but_0_is_a_refusal() {
        for code in 0..100 {
            let is_code = raw::code_words(code) != raw::code_words(u32::MAX);
            assert_eq!(Refusal::of(code).is_some(), is_code && code != 0, "code {code}");
        }
        assert!(Refusal::ALL.iter().all(|&refusal| Refusal::of(refusal.code()) == Some(refusal)));
    }
}
