//! What a service answers: the figures of a plan, the bytes or entries that it filled in or the number asked for, or a refusal's
//! number and place.

/// The answer of the C interface for a plan: seven numbers. A refusal has zero figures, figures have refusal 0 and place 0.
#[repr(C)]
#[derive(Clone, Copy, Debug, Default, PartialEq, Eq)]
pub struct Answer {
    pub refusal: u32,
    pub place: u32,
    pub modules: u32,
    pub cores: u32,
    pub slowest: u32,
    pub response: u32,
    pub copies: u32,
}

/// The answer of a service that neither judges nor plans: how many bytes or entries it filled in, or the number asked for. A
/// refusal has count 0.
#[repr(C)]
#[derive(Clone, Copy, Debug, Default, PartialEq, Eq)]
pub struct Filled {
    pub refusal: u32,
    pub place: u32,
    pub count: u32,
}

impl Filled {
    /// No refusal, but so many bytes or entries, or this number.
    pub fn counted(count: u32) -> Filled {
        Filled {
            refusal: 0,
            place: 0,
            count,
        }
    }
}

/// A refusal by its number in document 01 or 02; the place is 0 unless a document names one.
#[derive(Clone, Copy, Debug, PartialEq, Eq)]
pub struct Refusal {
    pub number: u32,
    pub place: u32,
}

impl Refusal {
    pub fn new(number: u32) -> Refusal {
        Refusal { number, place: 0 }
    }

    pub fn at(number: u32, place: usize) -> Refusal {
        let place = u32::try_from(place).expect("no file has so many records");
        Refusal { number, place }
    }
}

impl From<Refusal> for Answer {
    fn from(refusal: Refusal) -> Answer {
        Answer {
            refusal: refusal.number,
            place: refusal.place,
            ..Answer::default()
        }
    }
}

impl From<Refusal> for Filled {
    fn from(refusal: Refusal) -> Filled {
        Filled {
            refusal: refusal.number,
            place: refusal.place,
            count: 0,
        }
    }
}

/// The answer of a service that found what was asked for or had a reason to refuse.
pub fn answer<T: From<Refusal>>(result: Result<T, Refusal>) -> T {
    result.unwrap_or_else(T::from)
}
