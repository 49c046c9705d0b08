//! A small MSF file in memory, and a `Source` that lends its bytes. The bytes are 4-aligned, also
//! those of an empty stream: pdb's own reader hands out an empty `Vec`, whose pointer is not, and
//! then refuses the empty table.

use std::ops::Range;
use std::rc::Rc;
use std::{fmt, io};

use crate::msf::{open_msf, Stream};
use crate::source::{Source, SourceSlice, SourceView};
use crate::{Error, Result};

const MAGIC: &[u8; 32] = b"Microsoft C/C++ MSF 7.00\r\n\x1a\x44\x53\x00\x00\x00";
/// The least page that pdb accepts.
const PAGE: usize = 0x100;
/// pdb reads this much as the header, whatever the page.
const HEADER: usize = 0x1000;
const ABSENT: u32 = u32::MAX;

/// The file: header page, then the list of the directory's pages, the directory and the streams.
pub(crate) struct Container {
    words: Rc<Vec<u32>>,
}

fn pages(bytes: usize) -> usize {
    (bytes + PAGE - 1) / PAGE
}

impl Container {
    pub(crate) fn new(streams: &[Option<&[u8]>]) -> Self {
        let held = |s: &Option<&[u8]>| s.map_or(0, |bytes| pages(bytes.len()));
        let total: usize = streams.iter().map(held).sum();
        let directory = 4 * (1 + streams.len() + total);
        // The list of the directory's pages, and the header's list of that list's pages.
        let list = 4 * pages(directory);
        let list_at = 1;
        let directory_at = list_at + pages(list);
        let streams_at = directory_at + pages(directory);
        let end = streams_at + total;
        let mut words = vec![0u32; (end * PAGE).max(HEADER) / 4];

        let mut bytes = [0u8; 4];
        for (i, four) in MAGIC.chunks(4).enumerate() {
            bytes.copy_from_slice(four);
            words[i] = u32::from_ne_bytes(bytes);
        }
        let header = [PAGE, 0, end, directory, 0];
        put(&mut words, 8, header);
        put(&mut words, 13, list_at..directory_at);
        put(&mut words, list_at * PAGE / 4, directory_at..streams_at);

        let at = directory_at * PAGE / 4;
        put(&mut words, at, [streams.len()]);
        let size = |s: &Option<&[u8]>| s.map_or(ABSENT as usize, |bytes| bytes.len());
        put(&mut words, at + 1, streams.iter().map(size));
        put(&mut words, at + 1 + streams.len(), streams_at..end);

        let mut at = streams_at * PAGE;
        for stream in streams.iter().flatten() {
            bytes_mut(&mut words)[at..at + stream.len()].copy_from_slice(stream);
            at += pages(stream.len()) * PAGE;
        }
        Container {
            words: Rc::new(words),
        }
    }

    /// The stream of that number, or none where the directory marks it as absent.
    pub(crate) fn stream(&self, number: usize) -> Result<Option<Stream<'static>>> {
        stream(Lender(Rc::clone(&self.words)), number)
    }

    /// The same through pdb's own reader of files.
    pub(crate) fn stream_as_file(&self, number: usize) -> Result<Option<Stream<'static>>> {
        stream(io::Cursor::new(bytes(&self.words).to_vec()), number)
    }
}

fn stream<S: Source<'static> + 'static>(
    source: S,
    number: usize,
) -> Result<Option<Stream<'static>>> {
    match open_msf(source)?.get(number as u32, None) {
        Ok(stream) => Ok(Some(stream)),
        Err(Error::StreamNotFound(_)) => Ok(None),
        Err(error) => Err(error),
    }
}

fn put(words: &mut [u32], at: usize, values: impl IntoIterator<Item = usize>) {
    for (word, value) in words[at..].iter_mut().zip(values) {
        *word = (value as u32).to_le();
    }
}

fn bytes(words: &[u32]) -> &[u8] {
    // Sound: any u32 is four u8, and the length is theirs.
    unsafe { std::slice::from_raw_parts(words.as_ptr().cast(), words.len() * 4) }
}

fn bytes_mut(words: &mut [u32]) -> &mut [u8] {
    // Sound: as above, and any four u8 are a u32.
    unsafe { std::slice::from_raw_parts_mut(words.as_mut_ptr().cast(), words.len() * 4) }
}

struct Lender(Rc<Vec<u32>>);

struct Lent {
    words: Rc<Vec<u32>>,
    part: Range<usize>,
}

impl<'s> Source<'s> for Lender {
    fn view(&mut self, slices: &[SourceSlice]) -> io::Result<Box<dyn SourceView<'s>>> {
        // The pages of each stream follow one another, so pdb asks for one part at a time.
        let part = match *slices {
            [] => 0..0,
            [SourceSlice { offset, size }] => offset as usize..offset as usize + size,
            _ => return Err(io::ErrorKind::Unsupported.into()),
        };
        let words = Rc::clone(&self.0);
        Ok(Box::new(Lent { words, part }))
    }
}

impl<'s> SourceView<'s> for Lent {
    fn as_slice(&self) -> &[u8] {
        &bytes(&self.words)[self.part.clone()]
    }
}

impl fmt::Debug for Lender {
    fn fmt(&self, f: &mut fmt::Formatter<'_>) -> fmt::Result {
        write!(f, "Lender({} words)", self.0.len())
    }
}

impl fmt::Debug for Lent {
    fn fmt(&self, f: &mut fmt::Formatter<'_>) -> fmt::Result {
        write!(f, "Lent({:?})", self.part)
    }
}
