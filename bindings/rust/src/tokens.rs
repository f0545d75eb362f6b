use crate::{fill, Options, Refusal, LONGEST};
use std::iter::FusedIterator;
use std::vec;

/// The tokens of a text from its front, each a part of the text itself.
#[derive(Clone, Debug)]
pub struct Tokens<'a> {
    text: &'a [u8],
    start: usize,
    ends: vec::IntoIter<u32>,
}

/// Cuts the whole text. Joined, the tokens are the text again.
///
/// It is linear in the text's length: every call of the library checks the whole text, so there is just one, a fill with
/// room for as many ends as there are bytes. That is at most 4 MiB, since a longer text is refused.
pub fn tokens(text: &[u8], options: Options) -> Result<Tokens<'_>, Refusal> {
    let mut ends = vec![0; text.len().min(LONGEST)];
    let filled = fill(text, options, 0, &mut ends)?;
    ends.truncate(filled.count);
    Ok(Tokens {
        text,
        start: 0,
        ends: ends.into_iter(),
    })
}

impl<'a> Iterator for Tokens<'a> {
    type Item = &'a [u8];

    fn next(&mut self) -> Option<&'a [u8]> {
        let end = self.ends.next()? as usize;
        let token = &self.text[self.start..end];
        self.start = end;
        Some(token)
    }

    fn size_hint(&self) -> (usize, Option<usize>) {
        self.ends.size_hint()
    }
}

impl ExactSizeIterator for Tokens<'_> {}

impl FusedIterator for Tokens<'_> {}
