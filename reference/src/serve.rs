//! The line program's loop: input in large pieces, an answer for each line, constant memory.

use std::io::{self, ErrorKind, Read, Write};

use crate::lines::{answer, parse_head, run, LONGEST_ANSWER, LONGEST_LINE};
use crate::plant::Plant;

/// Bytes of input read at a time, and of output held before it is written.
const PIECE: usize = 64 * 1024;

/// Output that is gathered and written in large pieces.
struct Output<W: Write> {
    to: W,
    held: Box<[u8; PIECE]>,
    length: usize,
}

impl<W: Write> Output<W> {
    fn flush(&mut self) -> io::Result<()> {
        if self.length > 0 {
            self.to.write_all(&self.held[..self.length])?;
            self.to.flush()?;
            self.length = 0;
        }
        Ok(())
    }

    /// Room for one answer line.
    fn room(&mut self) -> io::Result<&mut [u8; LONGEST_ANSWER]> {
        if PIECE - self.length < LONGEST_ANSWER {
            self.flush()?;
        }
        Ok(self.held[self.length..].first_chunk_mut().expect("a flushed output has room"))
    }

    fn answer(&mut self, plant: &mut Plant, line: &[u8]) -> io::Result<()> {
        let length = answer(plant, line, self.room()?);
        self.length += length;
        Ok(())
    }
}

/// Answers every line of the input in order. All answers are written before the loop waits for
/// more input, so a caller at the other end of a pipe gets each as soon as it has sent byte 10.
pub fn serve<R: Read, W: Write>(plant: &mut Plant, mut from: R, to: W) -> io::Result<()> {
    let mut output = Output { to, held: Box::new([0; PIECE]), length: 0 };
    let mut input = Box::new([0; PIECE]);
    // Bytes at the front of `input` that belong to a line whose byte 10 has not come.
    let mut left = 0;
    // Whether further bytes of that line have been thrown away. It is longer than every line of a
    // known call, so the bytes kept are enough to answer it.
    let mut cut = false;

    loop {
        output.flush()?;
        let length = match from.read(&mut input[left..]) {
            Ok(0) => break,
            Ok(length) => left + length,
            Err(error) if error.kind() == ErrorKind::Interrupted => continue,
            Err(error) => return Err(error),
        };
        let mut at = 0;
        if cut {
            match find_line_end(&input[left..length]) {
                Some(end) => {
                    output.answer(plant, &input[..left])?;
                    at = left + end + 1;
                    cut = false;
                }
                None => continue,
            }
        }
        while at < length {
            let piece = &input[at..length];
            if let Some((call, taken)) = parse_head(piece) {
                let written = run(plant, &call, output.room()?);
                output.length += written;
                at += taken;
            } else if let Some(end) = find_line_end(piece) {
                output.answer(plant, &piece[..end])?;
                at += end + 1;
            } else {
                break;
            }
        }
        input.copy_within(at..length, 0);
        left = length - at;
        if left > LONGEST_LINE {
            left = LONGEST_LINE + 1;
            cut = true;
        }
    }
    if left > 0 {
        output.answer(plant, &input[..left])?;
    }
    output.flush()
}

/// The index of the first byte 10.
fn find_line_end(bytes: &[u8]) -> Option<usize> {
    bytes.iter().position(|&byte| byte == b'\n')
}
