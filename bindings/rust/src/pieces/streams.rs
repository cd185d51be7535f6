use core::fmt;
use std::error::Error;
use std::io::{self, ErrorKind, Read, Write};

use super::{Decoder, Encoder};
use crate::{DecodeError, Encoding};

/// The number of bytes that are converted at a time.
const CHUNK: usize = 8192;

/// The length of the buffer for their data, or for a text of about as many bytes.
const ROOM: usize = CHUNK + 8;

/// The reason why a stream failed.
#[derive(Debug)]
pub enum StreamFault {
    /// A read failed.
    Read(io::Error),

    /// A write or a flush failed.
    Write(io::Error),

    /// The text that was read has a fault.
    Decode(DecodeError),
}

impl fmt::Display for StreamFault {
    fn fmt(&self, formatter: &mut fmt::Formatter<'_>) -> fmt::Result {
        match self {
            StreamFault::Read(error) => write!(formatter, "read failed: {error}"),
            StreamFault::Write(error) => write!(formatter, "write failed: {error}"),
            StreamFault::Decode(error) => write!(formatter, "{error}"),
        }
    }
}

impl Error for StreamFault {
    fn source(&self) -> Option<&(dyn Error + 'static)> {
        match self {
            StreamFault::Read(error) | StreamFault::Write(error) => Some(error),
            StreamFault::Decode(error) => Some(error),
        }
    }
}

/// Returns the error of a reader of an invalid text.
fn invalid(error: DecodeError) -> io::Error {
    io::Error::new(ErrorKind::InvalidData, error)
}

impl From<StreamFault> for io::Error {
    fn from(fault: StreamFault) -> Self {
        match fault {
            StreamFault::Read(error) | StreamFault::Write(error) => error,
            StreamFault::Decode(error) => invalid(error),
        }
    }
}

/// Reads the data of a text from a reader of the text.
///
/// A text with a fault is read to its end, too. The data of the groups before the first faulty one
/// is read, and then each read fails with [`ErrorKind::InvalidData`] and the [`DecodeError`] of the
/// whole text. An error of the reader is passed on, and the next read continues.
///
/// ```
/// use data_encoding::{pieces::DecodeReader, DecodeError, BASE64};
/// use std::io::Read;
///
/// let mut data = Vec::new();
/// DecodeReader::new(BASE64, &b"Zm9vYmFy"[..]).read_to_end(&mut data).unwrap();
/// assert_eq!(data, b"foobar");
///
/// let mut reader = DecodeReader::new(BASE64, &b"Zm9v!m9v"[..]);
/// let error = reader.read_to_end(&mut data).unwrap_err();
/// let fault = error.get_ref().unwrap().downcast_ref::<DecodeError>().unwrap();
/// assert_eq!((&data[6..], fault.position), (&b"foo"[..], 4));
/// ```
#[derive(Debug)]
pub struct DecodeReader<R> {
    decoder: Decoder,
    reader: R,
    text: Buffer,
    data: Buffer,
    verdict: Option<Result<(), DecodeError>>,
}

/// Bytes of a fixed number of places, some of which are not taken yet.
struct Buffer {
    bytes: [u8; ROOM],
    from: usize,
    to: usize,
}

impl Buffer {
    fn new() -> Self {
        Buffer { bytes: [0; ROOM], from: 0, to: 0 }
    }

    fn is_empty(&self) -> bool {
        self.from == self.to
    }

    /// Replaces the bytes by the first `len` bytes of the places.
    fn fill(&mut self, len: usize) {
        (self.from, self.to) = (0, len);
    }

    /// Moves bytes to the start of `output`, and returns their number.
    fn move_to(&mut self, output: &mut [u8]) -> usize {
        let len = output.len().min(self.to - self.from);
        output[..len].copy_from_slice(&self.bytes[self.from..self.from + len]);
        self.from += len;
        len
    }

    /// Writes all the bytes. After an error those that were not written are left.
    fn write_to(&mut self, writer: &mut impl Write) -> io::Result<()> {
        while !self.is_empty() {
            match writer.write(&self.bytes[self.from..self.to]) {
                Ok(0) => return Err(ErrorKind::WriteZero.into()),
                Ok(len) => self.from += len,
                Err(error) if error.kind() == ErrorKind::Interrupted => {}
                Err(error) => return Err(error),
            }
        }
        Ok(())
    }
}

/// Leaves out the bytes, which may be secret.
impl fmt::Debug for Buffer {
    fn fmt(&self, formatter: &mut fmt::Formatter<'_>) -> fmt::Result {
        write!(formatter, "{} bytes", self.to - self.from)
    }
}

impl<R: Read> DecodeReader<R> {
    /// Returns a reader of the data of the text that `reader` has.
    pub fn new(encoding: Encoding, reader: R) -> Self {
        let decoder = Decoder::new(encoding);
        DecodeReader { decoder, reader, text: Buffer::new(), data: Buffer::new(), verdict: None }
    }

    /// Returns the inner reader. Text that was read ahead is lost.
    pub fn into_inner(self) -> R {
        self.reader
    }

    /// Decodes a piece of the text, or its end.
    fn advance(&mut self) -> io::Result<()> {
        let count = self.reader.read(&mut self.text.bytes[..CHUNK])?;
        if count > 0 {
            let piece = &self.text.bytes[..count];
            let written = self.decoder.read(piece, &mut self.data.bytes);
            self.data.fill(written);
        } else {
            let (last, verdict) = self.decoder.finish(&mut self.data.bytes);
            self.data.fill(last);
            self.verdict = Some(verdict);
        }
        Ok(())
    }
}

impl<R: Read> Read for DecodeReader<R> {
    fn read(&mut self, output: &mut [u8]) -> io::Result<usize> {
        if output.is_empty() {
            return Ok(0);
        }
        while self.data.is_empty() {
            match self.verdict {
                None => self.advance()?,
                Some(Ok(())) => return Ok(0),
                Some(Err(error)) => return Err(invalid(error)),
            }
        }
        Ok(self.data.move_to(output))
    }
}

/// Writes the text of data to a writer.
///
/// [`finish`](EncodeWriter::finish) writes the end of the text. Dropping the writer does not. After
/// an error of the inner writer no text is lost: the next call continues.
///
/// ```
/// use data_encoding::{pieces::EncodeWriter, BASE64};
/// use std::io::Write;
///
/// let mut writer = EncodeWriter::new(BASE64, Vec::new());
/// writer.write_all(b"foo").unwrap();
/// writer.write_all(b"ba").unwrap();
/// assert_eq!(writer.finish().unwrap(), b"Zm9vYmE=");
/// ```
#[derive(Debug)]
#[must_use = "`finish` writes the end of the text"]
pub struct EncodeWriter<W> {
    encoder: Encoder,
    writer: W,
    text: Buffer,
}

impl<W: Write> EncodeWriter<W> {
    /// Returns a writer of the text to `writer`.
    pub fn new(encoding: Encoding, writer: W) -> Self {
        EncodeWriter { encoder: Encoder::new(encoding), writer, text: Buffer::new() }
    }

    /// Writes the end of the text, flushes the inner writer, and returns it.
    ///
    /// # Errors
    ///
    /// Returns the error of the inner writer.
    pub fn finish(mut self) -> io::Result<W> {
        self.text.write_to(&mut self.writer)?;
        let last = self.encoder.finish(&mut self.text.bytes);
        self.text.fill(last);
        self.text.write_to(&mut self.writer)?;
        self.writer.flush()?;
        Ok(self.writer)
    }
}

impl<W: Write> Write for EncodeWriter<W> {
    fn write(&mut self, data: &[u8]) -> io::Result<usize> {
        self.text.write_to(&mut self.writer)?;
        let len = data.len().min(self.encoder.most_data(ROOM));
        let written = self.encoder.read(&data[..len], &mut self.text.bytes);
        self.text.fill(written);
        Ok(len)
    }

    /// Writes the text of the whole blocks. The text of an unfinished block waits for more data.
    fn flush(&mut self) -> io::Result<()> {
        self.text.write_to(&mut self.writer)?;
        self.writer.flush()
    }
}

/// Reads into the buffer until the read is not interrupted.
fn read_some(reader: &mut impl Read, buffer: &mut [u8]) -> Result<usize, StreamFault> {
    loop {
        match reader.read(buffer) {
            Err(error) if error.kind() == ErrorKind::Interrupted => {}
            result => return result.map_err(StreamFault::Read),
        }
    }
}

/// Reads a text to its end, writes its data, and flushes the writer once.
///
/// A text with a fault is read to its end, too. The data of the groups before the first faulty one
/// is written, and the fault of the whole text is returned.
///
/// # Errors
///
/// Returns the first error of the reader or of the writer, or the fault of the text.
///
/// ```
/// use data_encoding::{pieces::{decode_stream, StreamFault}, BASE64};
///
/// let mut data = Vec::new();
/// decode_stream(&BASE64, &b"Zm9vYmFy"[..], &mut data).unwrap();
/// assert_eq!(data, b"foobar");
/// let fault = decode_stream(&BASE64, &b"Zm9v!m9v"[..], &mut data).unwrap_err();
/// assert!(matches!(fault, StreamFault::Decode(error) if error.position == 4));
/// assert_eq!(data, b"foobarfoo");
/// ```
pub fn decode_stream(
    encoding: &Encoding,
    mut reader: impl Read,
    mut writer: impl Write,
) -> Result<(), StreamFault> {
    let mut decoder = Decoder::new(encoding.clone());
    let (mut text, mut data) = ([0; CHUNK], [0; ROOM]);
    loop {
        let count = read_some(&mut reader, &mut text)?;
        if count == 0 {
            break;
        }
        let written = decoder.read(&text[..count], &mut data);
        writer.write_all(&data[..written]).map_err(StreamFault::Write)?;
    }
    let (last, verdict) = decoder.finish(&mut data);
    writer.write_all(&data[..last]).and_then(|()| writer.flush()).map_err(StreamFault::Write)?;
    verdict.map_err(StreamFault::Decode)
}

/// Reads data to its end, writes its text, and flushes the writer once.
///
/// # Errors
///
/// Returns the first error of the reader or of the writer.
///
/// ```
/// let mut text = Vec::new();
/// data_encoding::pieces::encode_stream(&data_encoding::BASE64, &b"fooba"[..], &mut text).unwrap();
/// assert_eq!(text, b"Zm9vYmE=");
/// ```
pub fn encode_stream(
    encoding: &Encoding,
    mut reader: impl Read,
    writer: impl Write,
) -> Result<(), StreamFault> {
    let mut writer = EncodeWriter::new(encoding.clone(), writer);
    let mut data = [0; CHUNK];
    loop {
        let count = read_some(&mut reader, &mut data)?;
        if count == 0 {
            break;
        }
        writer.write_all(&data[..count]).map_err(StreamFault::Write)?;
    }
    writer.finish().map(|_| ()).map_err(StreamFault::Write)
}
