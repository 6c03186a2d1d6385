//! How the old prover and the model are fed: their command line, one house file or a batch of them, and a stack of their own.
use std::io::{self, Read, Write};

pub struct Feed {
    pub batch: bool,
    pub path: Option<String>,
}

/// Reads the command line: `--batch` and a path are the feed's own; every other option goes to `set`, which takes its number if it has one.
pub fn command_line(mut set: impl FnMut(&str, &mut dyn FnMut() -> usize)) -> Feed {
    let mut feed = Feed {
        batch: false,
        path: None,
    };
    let mut words = std::env::args().skip(1);
    while let Some(word) = words.next() {
        let mut number = || {
            let word = words.next().expect("a number");
            word.parse().expect("a number")
        };
        match word.as_str() {
            "--batch" => feed.batch = true,
            option if option.starts_with("--") => set(option, &mut number),
            _ => feed.path = Some(word),
        }
    }
    feed
}

fn next<'a>(length: usize, rest: &mut &'a [u8]) -> &'a [u8] {
    let (front, back) = rest.split_at(length);
    *rest = back;
    front
}

fn next_number(rest: &mut &[u8]) -> usize {
    let bytes = next(4, rest).try_into().expect("4 bytes");
    u32::from_le_bytes(bytes) as usize
}

impl Feed {
    /// Prints the answer to the one file; or, of a batch, to each: a file comes after its length in 4 bytes, little-endian, and after so
    /// many numbers in 4 bytes each, and its answer after its length in the same way.
    pub fn answer(
        &self,
        numbers: usize,
        mut answer: impl FnMut(&[usize], &[u8]) -> Vec<u8>,
    ) -> io::Result<()> {
        let mut input = vec![];
        match &self.path {
            Some(path) => input = std::fs::read(path)?,
            None => drop(io::stdin().lock().read_to_end(&mut input)?),
        }
        let mut output = io::stdout().lock();
        if !self.batch {
            return output.write_all(&answer(&[], &input));
        }
        let mut rest = &input[..];
        while !rest.is_empty() {
            let length = next_number(&mut rest);
            let before: Vec<usize> = (0..numbers).map(|_| next_number(&mut rest)).collect();
            let text = answer(&before, next(length, &mut rest));
            output.write_all(&(text.len() as u32).to_le_bytes())?;
            output.write_all(&text)?;
            output.flush()?;
        }
        Ok(())
    }
}

/// Runs on a stack of so many bytes.
pub fn on_a_stack(
    bytes: usize,
    run: impl FnOnce() -> io::Result<()> + Send + 'static,
) -> io::Result<()> {
    let thread = std::thread::Builder::new().stack_size(bytes);
    thread.spawn(run)?.join().expect("no panic escapes")
}
