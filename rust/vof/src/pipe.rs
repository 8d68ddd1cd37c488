//! Packs that come in parts.

use crate::{of_pack, raw, word, Entry, Refusal};
use std::io::{self, BufRead, BufReader, ErrorKind, Read};

/// A pack of at most [`PIPE_LIMIT`] bytes that comes in parts.
///
/// However it is cut, its records and its refusal are those that [`scan`] would tell of the whole, with this
/// limit for its own; but each record is told as it completes, so that those before a fault are told too. A
/// refusal takes nothing of its part, and is given again at every later call. What is kept between parts has
/// one size. A pipe may be cloned, and gone on with twice.
///
/// [`scan`]: crate::scan
/// [`PIPE_LIMIT`]: crate::PIPE_LIMIT
///
/// ```
/// let mut writer = vof::Writer::new();
/// let first = writer.block(b"00000000000000000000000001:herd/k", b"abc")?;
/// let second = writer.block(b"00000000000000000000000002:herd/k", b"de")?;
///
/// let (mut pipe, mut starts) = (vof::Pipe::new(), Vec::new());
/// for part in writer.as_bytes().chunks(50) {
///     for record in pipe.feed(part) {
///         starts.push(record?.start);
///     }
/// }
/// assert_eq!(starts, [first, second]);
/// assert_eq!(pipe.clone().end()?, 2);
///
/// pipe.feed(b"more").for_each(drop);
/// assert_eq!(pipe.end().unwrap_err().number, vof::refused::RECORD_CUT);
/// # Ok::<(), vof::Refusal>(())
/// ```
#[derive(Clone, Debug)]
pub struct Pipe {
    state: [u64; raw::PIPE_STATE],
}

impl Pipe {
    /// Before the first byte of a pack.
    pub fn new() -> Pipe {
        let mut state = [0; raw::PIPE_STATE];
        // It has so many numbers, and then nothing is refused.
        raw::pipe_start(&mut state);
        Pipe { state }
    }

    /// Takes a part up to the byte that completes a record: how many bytes were taken, and that record. Where
    /// there is none the whole part was taken.
    ///
    /// Refused with 1 where a byte past [`PIPE_LIMIT`] would be taken, with 3 to 6 once a header is whole, with
    /// 8 once a value is, all with a place.
    ///
    /// [`PIPE_LIMIT`]: crate::PIPE_LIMIT
    pub fn take(&mut self, part: &[u8]) -> Result<(usize, Option<Entry>), Refusal> {
        let mut told = [0; 6];
        word(raw::pipe_take(&mut self.state, part, &mut told), of_pack)?;
        let [taken, event, record @ ..] = told;
        Ok((taken as usize, (event == 1).then(|| Entry::told(record))))
    }

    /// The records that complete in a part, which is taken as far as they are asked for; a refusal is the last
    /// item.
    pub fn feed<'a>(&'a mut self, part: &'a [u8]) -> Records<'a> {
        Records { pipe: self, part }
    }

    /// How many records the pack has, of which this is the end.
    ///
    /// Refused with 2 where the last header is not whole, with 7 where the last value is not, or again as
    /// before.
    pub fn end(mut self) -> Result<u64, Refusal> {
        word(raw::pipe_end(&mut self.state), of_pack)
    }
}

impl Default for Pipe {
    fn default() -> Pipe {
        Pipe::new()
    }
}

/// What [`Pipe::feed`] gives.
#[derive(Debug)]
#[must_use = "a part is taken as far as its records are asked for"]
pub struct Records<'a> {
    pipe: &'a mut Pipe,
    part: &'a [u8],
}

impl Iterator for Records<'_> {
    type Item = Result<Entry, Refusal>;

    fn next(&mut self) -> Option<Result<Entry, Refusal>> {
        if self.part.is_empty() {
            return None;
        }
        let taken = self.pipe.take(self.part);
        let rest = taken.map_or(self.part.len(), |(count, _)| count);
        self.part = &self.part[rest..];
        taken.map(|(_, record)| record).transpose()
    }
}

/// What [`stream`] gives.
#[derive(Debug)]
pub struct Stream<R> {
    source: BufReader<R>,
    pipe: Pipe,
    is_done: bool,
}

/// The records of a pack that is read from a file, a socket or another source up to its end, each as it
/// completes.
///
/// A refusal is an error of the kind `InvalidData` that holds the [`Refusal`]. It is the last item, and so is
/// an error of the source.
///
/// ```
/// let mut writer = vof::Writer::new();
/// writer.block(b"00000000000000000000000001:herd/k", b"abc")?;
/// let pack = writer.as_bytes();
/// let records: std::io::Result<Vec<vof::Entry>> = vof::stream(pack).collect();
/// assert_eq!(records?, vof::scan(pack)?);
///
/// let error = vof::stream(&pack[..50]).last().unwrap().unwrap_err();
/// assert_eq!(error.to_string(), "refused 7 at 0: the pack ends within the record's value");
/// # Ok::<(), std::io::Error>(())
/// ```
pub fn stream<R: Read>(source: R) -> Stream<R> {
    Stream {
        source: BufReader::with_capacity(65_536, source),
        pipe: Pipe::new(),
        is_done: false,
    }
}

impl<R: Read> Stream<R> {
    /// The record that completes in the next bytes of the source.
    fn read(&mut self) -> io::Result<Option<Entry>> {
        let part = self.source.fill_buf()?;
        if part.is_empty() {
            self.is_done = true;
            self.pipe.clone().end()?;
            return Ok(None);
        }
        let (taken, record) = self.pipe.take(part)?;
        self.source.consume(taken);
        Ok(record)
    }
}

impl<R: Read> Iterator for Stream<R> {
    type Item = io::Result<Entry>;

    fn next(&mut self) -> Option<io::Result<Entry>> {
        while !self.is_done {
            match self.read() {
                Err(error) if error.kind() == ErrorKind::Interrupted => {}
                Ok(None) => {}
                told => {
                    self.is_done |= told.is_err();
                    return told.transpose();
                }
            }
        }
        None
    }
}

impl From<Refusal> for io::Error {
    fn from(refusal: Refusal) -> io::Error {
        io::Error::new(ErrorKind::InvalidData, refusal)
    }
}
