//! Meirhuppa's four jobs, its panel check, its scan runner, its reader and printer of text, its summaries and its smaller images over slices. What
//! they promise is document 01, with the two bindings of request T-04 and the primitives of T-08, and requests T-01, T-02, T-05, T-10 and T-11 for the
//! others, and is proved of the code behind the boundary; this crate adds names for the refusals and the lengths of the slices, which are true by their
//! type.
//!
//! A call takes at most 160 KiB of the calling thread's stack. That is measured, on x86-64, and not proved.
#![deny(warnings)]

#[cfg(target_arch = "x86_64")]
mod uses;
#[cfg(target_arch = "x86_64")]
pub use uses::{replace, summary, uses, Summary, Uses};

/// What a job that succeeded answers.
#[derive(Clone, Copy, Debug, PartialEq, Eq)]
pub struct Answer {
    /// Units charged.
    pub units: u32,
    /// The name, of a resolve; else 0.
    pub name: u32,
    /// How many bytes of the output the written image takes; 0 of a resolve.
    pub length: usize,
}

/// Why a job was refused, and the units charged before it: none of a panel check, a scan, a text, a summary or a smaller image. What was lent is as
/// it was.
#[derive(Clone, Copy, Debug, PartialEq, Eq)]
pub struct Refusal {
    pub code: Code,
    pub units: u32,
    /// Who competes, of [`Code::Ambiguous`] and of no other.
    pub rivals: Option<Rivals>,
}

/// Two bindings that both fit an ambiguous word, of which neither contains the other: their places, counted from 1 in image order, in the store at
/// that moment, `first` before `second`. That store has the image's bindings and those that expanding has made so far, each where an image written
/// just then would have it.
#[derive(Clone, Copy, Debug, PartialEq, Eq)]
pub struct Rivals {
    pub first: u32,
    pub second: u32,
}

impl std::fmt::Display for Rivals {
    fn fmt(&self, out: &mut std::fmt::Formatter) -> std::fmt::Result {
        write!(out, "bindings {} and {} compete", self.first, self.second)
    }
}

impl std::fmt::Display for Refusal {
    fn fmt(&self, out: &mut std::fmt::Formatter) -> std::fmt::Result {
        match self.rivals {
            Some(rivals) => write!(out, "ambiguous: {rivals}"),
            None => write!(out, "refused with code {}", self.code.number()),
        }
    }
}

impl std::error::Error for Refusal {}

/// The refusals of document 01, and of requests T-01, T-02, T-05, T-08 and T-10. Number 16 is none of them and stays unused.
#[derive(Clone, Copy, Debug, PartialEq, Eq)]
#[non_exhaustive]
pub enum Code {
    /// 1: the image breaks the layout.
    Layout,
    /// 2: a count, value or nesting is over its limit.
    OverLimit,
    /// 3: a variable of the tree has no enclosing function of its name.
    Unowned,
    /// 4: the image's kind is not the job's.
    WrongKind,
    /// 5: budget over 4,096, or too few table words for it.
    SmallTable,
    /// 6: several bindings fit and none contains the others. The refusal has two of them: [`Rivals`].
    Ambiguous,
    /// 7: an identifier whose name has no meaning.
    NoMeaning,
    /// 8: a form with no rule.
    NoRule,
    /// 9: a macro use evaluates to no syntax object.
    NoSyntax,
    /// 10: what is applied is no function or primitive, or the argument count is wrong.
    NotApplicable,
    /// 11: a primitive's argument is of the wrong kind.
    WrongArgument,
    /// 12: phase over 2.
    NoPhase,
    /// 13: no name left.
    NoNameLeft,
    /// 14: no scope left.
    NoScopeLeft,
    /// 15: no binding room left.
    NoBindingLeft,
    /// 17: something made has nesting over 64.
    TooDeep,
    /// 18: a 129th entry in progress.
    TooManyEntries,
    /// 19: a charge is larger than what remains.
    OverBudget,
    /// 20: the result is longer than the output or 65,536 bytes; of a panel check or a summary, more words than are lent; of scans, lines longer
    /// than the output, whatever that is.
    TooLong,
    /// 21: the tree is no program of the panel profile.
    OutsideProfile,
    /// 22: two `out` drive one point.
    DrivenTwice,
    /// 23: more than 256 bits.
    TooManyBits,
    /// 24: the recording breaks its layout or is longer than 65,536 bytes.
    BadRecording,
    /// 25: a change of the recording names a point that the program drives.
    DrivenChange,
    /// 26: something that is no part of a text, no object at all, or a second one.
    BadText,
    /// 27: a closing parenthesis with nothing open, or one left open at the end of the text.
    Unbalanced,
    /// 28: primitive 7, 8 or 9 where no macro is used, in a right-hand side or the evaluate job.
    NoIntroduction,
    /// 29: the summary is too short or belongs to a tree with another size or count of names, or the tree has no such place.
    AnotherTree,
    /// 30: the image has no such name.
    NoSuchName,
    /// A number that this crate has no name for.
    Unknown(u32),
}

const NUMBERED: [(u32, Code); 29] = [
    (1, Code::Layout),
    (2, Code::OverLimit),
    (3, Code::Unowned),
    (4, Code::WrongKind),
    (5, Code::SmallTable),
    (6, Code::Ambiguous),
    (7, Code::NoMeaning),
    (8, Code::NoRule),
    (9, Code::NoSyntax),
    (10, Code::NotApplicable),
    (11, Code::WrongArgument),
    (12, Code::NoPhase),
    (13, Code::NoNameLeft),
    (14, Code::NoScopeLeft),
    (15, Code::NoBindingLeft),
    (17, Code::TooDeep),
    (18, Code::TooManyEntries),
    (19, Code::OverBudget),
    (20, Code::TooLong),
    (21, Code::OutsideProfile),
    (22, Code::DrivenTwice),
    (23, Code::TooManyBits),
    (24, Code::BadRecording),
    (25, Code::DrivenChange),
    (26, Code::BadText),
    (27, Code::Unbalanced),
    (28, Code::NoIntroduction),
    (29, Code::AnotherTree),
    (30, Code::NoSuchName),
];

impl Code {
    /// The refusal with this number.
    pub fn of(number: u32) -> Code {
        NUMBERED.iter().find(|entry| entry.0 == number).map_or(Code::Unknown(number), |entry| entry.1)
    }

    /// Its number in documents 01 and 02.
    pub fn number(self) -> u32 {
        match self {
            Code::Unknown(number) => number,
            named => NUMBERED.iter().find(|entry| entry.1 == named).map_or(0, |entry| entry.0),
        }
    }
}

/// Words of the table per unit of budget.
pub const WORDS_PER_UNIT: usize = 40;

/// So many words lent to a panel check are always enough.
pub const MOST_BITS: usize = 256;

/// So many words lent for a summary are always enough: two, and two for each of 1,024 names.
pub const MOST_SUMMARY: usize = 2050;

/// Bytes of a scan's line, with its end, at most: so many for each scan are always enough.
pub const MOST_LINE: usize = 7088;

/// No image is longer, and no printed text: to read or print, a longer output is of no use.
pub const MOST_IMAGE: usize = 65536;

/// The lines of scans, the first scan's first. Each comes without its line end.
#[derive(Clone, Debug, PartialEq, Eq)]
pub struct Lines<'a> {
    left: &'a str,
}

impl<'a> Lines<'a> {
    /// The lines that are left, each with its end, as the library wrote them.
    pub fn text(&self) -> &'a str {
        self.left
    }
}

impl<'a> Iterator for Lines<'a> {
    type Item = &'a str;

    fn next(&mut self) -> Option<&'a str> {
        let (line, left) = self.left.split_once('\n')?;
        self.left = left;
        Some(line)
    }
}

impl std::iter::FusedIterator for Lines<'_> {}

#[cfg(target_arch = "x86_64")]
mod library {
    #[repr(C)]
    pub struct Raw {
        pub code: u32,
        pub units: u32,
        pub name: u32,
        pub length: u32,
        pub first: u32,
        pub second: u32,
    }

    #[repr(C)]
    pub struct RawUses {
        pub code: u32,
        pub count: u32,
        pub first: u32,
    }

    impl Raw {
        /// The library has places from 1, and 0 where none compete.
        fn rivals(&self) -> Option<super::Rivals> {
            (self.first != 0).then_some(super::Rivals { first: self.first, second: self.second })
        }
    }

    extern "C" {
        pub fn meirhuppa_resolve(
            image: *const u8,
            image_length: usize,
            phase: u32,
            budget: u32,
            table: *mut u32,
            table_words: usize,
        ) -> Raw;
        pub fn meirhuppa_expand(
            image: *const u8,
            image_length: usize,
            phase: u32,
            budget: u32,
            table: *mut u32,
            table_words: usize,
            output: *mut u8,
            output_length: usize,
        ) -> Raw;
        pub fn meirhuppa_parse(
            image: *const u8,
            image_length: usize,
            budget: u32,
            table: *mut u32,
            table_words: usize,
            output: *mut u8,
            output_length: usize,
        ) -> Raw;
        pub fn meirhuppa_evaluate(
            image: *const u8,
            image_length: usize,
            budget: u32,
            table: *mut u32,
            table_words: usize,
            output: *mut u8,
            output_length: usize,
        ) -> Raw;
        pub fn meirhuppa_panel(image: *const u8, image_length: usize, bits: *mut u32, bits_words: usize) -> Raw;
        pub fn meirhuppa_scan(
            image: *const u8,
            image_length: usize,
            recording: *const u8,
            recording_length: usize,
            output: *mut u8,
            output_length: usize,
        ) -> Raw;
        pub fn meirhuppa_read(text: *const u8, text_length: usize, output: *mut u8, output_length: usize) -> Raw;
        pub fn meirhuppa_print(image: *const u8, image_length: usize, output: *mut u8, output_length: usize) -> Raw;
        pub fn meirhuppa_summary(image: *const u8, image_length: usize, summary: *mut u32, summary_words: usize) -> Raw;
        pub fn meirhuppa_uses(
            image: *const u8,
            image_length: usize,
            summary: *const u32,
            summary_words: usize,
            name: u32,
        ) -> RawUses;
        pub fn meirhuppa_replace(
            image: *const u8,
            image_length: usize,
            place: u32,
            part: *const u8,
            part_length: usize,
            summary: *mut u32,
            summary_words: usize,
            output: *mut u8,
            output_length: usize,
        ) -> Raw;
        pub fn meirhuppa_shrink(image: *const u8, image_length: usize, output: *mut u8, output_length: usize) -> Raw;
    }

    pub fn uses_answer(raw: RawUses) -> Result<super::Uses, super::Refusal> {
        if raw.code == 0 {
            return Ok(super::Uses { count: raw.count, first: raw.first });
        }
        Err(super::Refusal { code: super::Code::of(raw.code), units: 0, rivals: None })
    }

    pub fn answer(raw: Raw) -> Result<super::Answer, super::Refusal> {
        if raw.code == 0 {
            return Ok(super::Answer { units: raw.units, name: raw.name, length: raw.length as usize });
        }
        Err(super::Refusal { code: super::Code::of(raw.code), units: raw.units, rivals: raw.rivals() })
    }
}

#[cfg(target_arch = "x86_64")]
pub fn resolve(image: &[u8], phase: u32, budget: u32, table: &mut [u32]) -> Result<Answer, Refusal> {
    // SAFETY: slices are good for their length and do not overlap, which is all that the library asks of its caller.
    let raw = unsafe {
        library::meirhuppa_resolve(image.as_ptr(), image.len(), phase, budget, table.as_mut_ptr(), table.len())
    };
    library::answer(raw)
}

#[cfg(target_arch = "x86_64")]
pub fn expand(
    image: &[u8],
    phase: u32,
    budget: u32,
    table: &mut [u32],
    output: &mut [u8],
) -> Result<Answer, Refusal> {
    // SAFETY: as in `resolve`.
    let raw = unsafe {
        library::meirhuppa_expand(
            image.as_ptr(),
            image.len(),
            phase,
            budget,
            table.as_mut_ptr(),
            table.len(),
            output.as_mut_ptr(),
            output.len(),
        )
    };
    library::answer(raw)
}

#[cfg(target_arch = "x86_64")]
pub fn parse(image: &[u8], budget: u32, table: &mut [u32], output: &mut [u8]) -> Result<Answer, Refusal> {
    // SAFETY: as in `resolve`.
    let raw = unsafe {
        library::meirhuppa_parse(
            image.as_ptr(),
            image.len(),
            budget,
            table.as_mut_ptr(),
            table.len(),
            output.as_mut_ptr(),
            output.len(),
        )
    };
    library::answer(raw)
}

#[cfg(target_arch = "x86_64")]
pub fn evaluate(image: &[u8], budget: u32, table: &mut [u32], output: &mut [u8]) -> Result<Answer, Refusal> {
    // SAFETY: as in `resolve`.
    let raw = unsafe {
        library::meirhuppa_evaluate(
            image.as_ptr(),
            image.len(),
            budget,
            table.as_mut_ptr(),
            table.len(),
            output.as_mut_ptr(),
            output.len(),
        )
    };
    library::answer(raw)
}

/// The names of a panel program's bits in order of address, at the front of `bits`: the bit with address 0 comes first. A tree image goes in, as
/// [`parse`] writes it. A refusal leaves all of `bits` as it was, success what is behind the names.
#[cfg(target_arch = "x86_64")]
pub fn panel<'a>(image: &[u8], bits: &'a mut [u32]) -> Result<&'a [u32], Refusal> {
    // SAFETY: as in `resolve`.
    let raw = unsafe { library::meirhuppa_panel(image.as_ptr(), image.len(), bits.as_mut_ptr(), bits.len()) };
    // The length counts bytes.
    library::answer(raw).map(|answer| &bits[..answer.length / std::mem::size_of::<u32>()])
}

/// Runs a panel program over a recording, and gives the line of each scan, as `3 @10=1 @13=0`: the scan's number, from 1, and every point that the
/// program drives with its value. A tree image goes in, as [`parse`] writes it, and a recording as request T-02 lays it out. The lines stand at the
/// front of `output`. A refusal leaves all of it as it was, success what is behind them.
#[cfg(target_arch = "x86_64")]
pub fn scan<'a>(image: &[u8], recording: &[u8], output: &'a mut [u8]) -> Result<Lines<'a>, Refusal> {
    // SAFETY: as in `resolve`.
    let raw = unsafe {
        library::meirhuppa_scan(
            image.as_ptr(),
            image.len(),
            recording.as_ptr(),
            recording.len(),
            output.as_mut_ptr(),
            output.len(),
        )
    };
    let answer = library::answer(raw)?;
    let left = std::str::from_utf8(&output[..answer.length]).expect("lines are digits, spaces, @, = and line ends");
    Ok(Lines { left })
}

/// The syntax image of the one object that a text holds, at the front of `output`: no scopes, and the words numbered as first met. A text may be of
/// any length, with parentheses to any depth; its bytes may be any, and what cannot be read is [`Code::BadText`]. A refusal leaves all of `output`
/// as it was, success what is behind the image.
#[cfg(target_arch = "x86_64")]
pub fn read<'a>(text: &[u8], output: &'a mut [u8]) -> Result<&'a [u8], Refusal> {
    // SAFETY: as in `resolve`.
    let raw = unsafe { library::meirhuppa_read(text.as_ptr(), text.len(), output.as_mut_ptr(), output.len()) };
    library::answer(raw).map(|answer| &output[..answer.length])
}

/// The text of the object that a syntax image holds, without its scopes, at the front of `output`: single spaces, and no line end. [`read`] gives
/// the same objects again, words by their spelling. A refusal leaves all of `output` as it was, success what is behind the text.
#[cfg(target_arch = "x86_64")]
pub fn print<'a>(image: &[u8], output: &'a mut [u8]) -> Result<&'a str, Refusal> {
    // SAFETY: as in `resolve`.
    let raw = unsafe { library::meirhuppa_print(image.as_ptr(), image.len(), output.as_mut_ptr(), output.len()) };
    let answer = library::answer(raw)?;
    Ok(std::str::from_utf8(&output[..answer.length]).expect("a text has bytes from 32 to 126"))
}

/// A syntax image of the same meaning, for the archive, at the front of `output`: without the bindings whose symbol has no identifier that contains
/// their set at some phase, then without the scopes that are in no set any more, the rest renumbered in order. It is never longer than `image`, so an
/// output as long as that is always enough. [`parse`] gives the same answer of both, but for the numbers of scopes in syntax values and their count.
/// A refusal leaves all of `output` as it was, success what is behind the image.
#[cfg(target_arch = "x86_64")]
pub fn shrink<'a>(image: &[u8], output: &'a mut [u8]) -> Result<&'a [u8], Refusal> {
    // SAFETY: as in `resolve`.
    let raw = unsafe { library::meirhuppa_shrink(image.as_ptr(), image.len(), output.as_mut_ptr(), output.len()) };
    library::answer(raw).map(|answer| &output[..answer.length])
}
