//! Where a bit is used (request T-10): a summary beside a tree image, questions to it, and a part of the tree replaced.
use crate::{library, Refusal};

/// How often a name is used in a tree, outside syntax values.
#[derive(Clone, Copy, Debug, PartialEq, Eq)]
pub struct Uses {
    pub count: u32,
    /// The place of the first use; 0 where there is none. Places count from 0 the things that size counts, a whole before its parts, left to right.
    pub first: u32,
}

/// Makes the summary of a tree image at the front of `words`: the tree's size, the count of names, and for each name from 0 its count and its
/// first place. [`MOST_SUMMARY`](crate::MOST_SUMMARY) words are always enough. A refusal leaves all of `words` as it was, success what is behind
/// the summary.
pub fn summary<'a>(image: &[u8], words: &'a mut [u32]) -> Result<&'a [u32], Refusal> {
    // SAFETY: slices are good for their length and do not overlap, which is all that the library asks of its caller.
    let raw = unsafe { library::meirhuppa_summary(image.as_ptr(), image.len(), words.as_mut_ptr(), words.len()) };
    // The length counts bytes.
    library::answer(raw).map(|answer| &words[..answer.length / std::mem::size_of::<u32>()])
}

/// Asks a summary for a name: one entry is read, whatever the tree, and no entry is tested.
pub fn uses(image: &[u8], words: &[u32], name: u32) -> Result<Uses, Refusal> {
    // SAFETY: as in `summary`.
    let raw = unsafe { library::meirhuppa_uses(image.as_ptr(), image.len(), words.as_ptr(), words.len(), name) };
    library::uses_answer(raw)
}

/// Puts a part in a place of a tree image, writes the new image at the front of `output`, and brings the summary in `words` up to date. The part
/// is a tree as it stands in an image, without head. A refusal leaves `words` and `output` as they were, success what is behind the last name and
/// behind the image.
pub fn replace<'a>(image: &[u8], place: u32, part: &[u8], words: &mut [u32], output: &'a mut [u8]) -> Result<&'a [u8], Refusal> {
    // SAFETY: as in `summary`.
    let raw = unsafe {
        library::meirhuppa_replace(
            image.as_ptr(),
            image.len(),
            place,
            part.as_ptr(),
            part.len(),
            words.as_mut_ptr(),
            words.len(),
            output.as_mut_ptr(),
            output.len(),
        )
    };
    library::answer(raw).map(|answer| &output[..answer.length])
}

/// A summary that has its own words, to be kept beside a tree image.
#[derive(Clone, Debug, PartialEq, Eq)]
pub struct Summary {
    words: Vec<u32>,
}

impl Summary {
    /// The summary of a tree image.
    pub fn of(image: &[u8]) -> Result<Summary, Refusal> {
        let mut lent = [0; crate::MOST_SUMMARY];
        summary(image, &mut lent).map(|words| Summary { words: words.to_vec() })
    }

    /// A summary kept elsewhere. Any words will do: what is no summary of an image is refused when it is asked.
    pub fn from_words(words: Vec<u32>) -> Summary {
        Summary { words }
    }

    /// Size, names, and count and first place of each name.
    pub fn words(&self) -> &[u32] {
        &self.words
    }

    /// How often a name is used in the image whose summary this is.
    pub fn uses(&self, image: &[u8], name: u32) -> Result<Uses, Refusal> {
        uses(image, &self.words, name)
    }

    /// The image with another part in a place, at the front of `output`. The summary is then that image's; after a refusal it is as it was.
    pub fn replace<'a>(&mut self, image: &[u8], place: u32, part: &[u8], output: &'a mut [u8]) -> Result<&'a [u8], Refusal> {
        replace(image, place, part, &mut self.words, output)
    }
}
