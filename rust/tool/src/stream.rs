//! A stream of lines, each answered by one line, in the same order, on several threads.
//!
//! A worker takes the lines that have come, as one block, answers them and hands the block on; the main thread puts the blocks
//! in order and prints the answers at once. So whoever writes a line and waits gets its answer. A fixed number of blocks
//! goes round, which bounds the memory.

use crate::files::Source;
use crate::lines::{Coder, LONGEST};
use crate::report::Report;
use std::collections::BTreeMap;
use std::io::{self, ErrorKind};
use std::panic::{catch_unwind, AssertUnwindSafe};
use std::sync::mpsc::{channel, Receiver, Sender};
use std::sync::{Arc, Mutex};
use std::thread;

/// The most bytes that are read at once.
const ROOM: usize = 1 << 18;

/// As many blocks go round for each worker, so that one who is done need not wait for the blocks before.
const BLOCKS_EACH: usize = 2;

/// The exit status of a program that Rust ends for a panic.
const PANICKED: i32 = 101;

/// Some lines of the stream and their answers.
#[derive(Default)]
struct Block {
    number: u64,
    lines: Vec<u8>,
    answers: Vec<u8>,
    /// Whether each line was taken.
    taken: bool,
    /// What ended the input, if not its end.
    error: Option<io::Error>,
}

impl Block {
    fn answer(&mut self, coder: &mut Coder) {
        self.answers.clear();
        self.taken = true;
        for line in self.lines.split_inclusive(|&byte| byte == b'\n') {
            self.taken &= coder.answer(line, &mut self.answers);
        }
    }
}

/// What the workers share: the source, and what they fill.
struct Input {
    source: Source,
    room: Vec<u8>,
    /// The beginning of a line whose end hasn't come.
    begun: Vec<u8>,
    empty: Receiver<Block>,
    count: u64,
    ended: bool,
}

impl Input {
    fn new(source: Source, empty: Receiver<Block>) -> Input {
        Input { source, room: vec![0; ROOM], begun: Vec::new(), empty, count: 0, ended: false }
    }

    /// The next block; nothing at the end.
    fn next(&mut self) -> Option<Block> {
        if self.ended {
            return None;
        }
        let mut block = self.empty.recv().ok()?;
        block.error = self.fill(&mut block.lines).err();
        self.ended |= block.error.is_some();
        block.number = self.count;
        self.count += 1;
        (!block.lines.is_empty() || block.error.is_some()).then_some(block)
    }

    /// Puts the lines that have come into a block, or waits for one. The last line may lack its end.
    fn fill(&mut self, lines: &mut Vec<u8>) -> io::Result<()> {
        lines.clear();
        while lines.is_empty() && !self.ended {
            let count = read_some(&mut self.source, &mut self.room)?;
            let come = &self.room[..count];
            self.ended = count == 0;
            let whole = match come.iter().rposition(|&byte| byte == b'\n') {
                Some(last) => last + 1,
                None => 0,
            };
            if whole > 0 || self.ended {
                lines.append(&mut self.begun);
                lines.extend(&come[..whole]);
            }
            self.begun.extend(&come[whole..]);
            // Of a line that is too long no more is kept than tells that it is.
            self.begun.truncate(LONGEST + 2);
        }
        Ok(())
    }
}

fn read_some(source: &mut Source, room: &mut [u8]) -> io::Result<usize> {
    loop {
        match source.read(room) {
            Err(error) if error.kind() == ErrorKind::Interrupted => {}
            done => return done,
        }
    }
}

/// Answered blocks in the order of their lines.
struct InOrder {
    answered: Receiver<Block>,
    /// Those that came before their turn.
    early: BTreeMap<u64, Block>,
    next: u64,
}

impl Iterator for InOrder {
    type Item = Block;

    fn next(&mut self) -> Option<Block> {
        while !self.early.contains_key(&self.next) {
            let block = self.answered.recv().ok()?;
            self.early.insert(block.number, block);
        }
        self.next += 1;
        self.early.remove(&(self.next - 1))
    }
}

/// Answers every line of a source with copies of a coder, `jobs` blocks at a time. Ends early, without an error, if nobody takes the
/// answers.
pub fn answer_all(source: Source, coder: &Coder, jobs: usize, report: &mut Report) -> io::Result<()> {
    let (give_back, empty) = channel();
    (0..BLOCKS_EACH * jobs).try_for_each(|_| give_back.send(Block::default())).map_err(io::Error::other)?;
    let answered = workers(Input::new(source, empty), coder, jobs)?;
    for mut block in (InOrder { answered, early: BTreeMap::new(), next: 0 }) {
        print(&block, report);
        if let Some(error) = block.error.take() {
            return Err(error);
        } else if report.closed() {
            return Ok(());
        }
        // After the last one nobody wants it.
        let _ = give_back.send(block);
    }
    Ok(())
}

fn print(block: &Block, report: &mut Report) {
    report.bytes(&block.answers);
    report.flush();
    if !block.taken {
        report.found_wrong();
    }
}

/// Begins the workers; the blocks that they have answered, in any order. They end with the input or with the program: one
/// that waits for input doesn't keep the program from ending. Where the system has no more threads, fewer must do.
fn workers(input: Input, coder: &Coder, jobs: usize) -> io::Result<Receiver<Block>> {
    let input = Arc::new(Mutex::new(input));
    let (done, answered) = channel();
    for job in 0..jobs {
        let (input, coder, done) = (Arc::clone(&input), coder.clone(), done.clone());
        let begun = thread::Builder::new().spawn(move || {
            // The others would wait for the lost block.
            catch_unwind(AssertUnwindSafe(|| work(&input, coder, &done))).unwrap_or_else(|_| std::process::exit(PANICKED));
        });
        match begun {
            Err(error) if job == 0 => return Err(error),
            Err(_) => break,
            Ok(_) => {}
        }
    }
    Ok(answered)
}

fn work(input: &Mutex<Input>, mut coder: Coder, done: &Sender<Block>) {
    let next = || input.lock().ok()?.next();
    while let Some(mut block) = next() {
        block.answer(&mut coder);
        if done.send(block).is_err() {
            return;
        }
    }
}

#[cfg(test)]
mod tests {
    use super::*;
    use std::io::Read;

    /// Gives these parts one by one, then an error or the end.
    struct Parts(Vec<&'static [u8]>, Option<ErrorKind>);

    impl Read for Parts {
        fn read(&mut self, room: &mut [u8]) -> io::Result<usize> {
            if self.0.is_empty() {
                return self.1.map_or(Ok(0), |kind| Err(kind.into()));
            }
            let part = self.0.remove(0);
            room[..part.len()].copy_from_slice(part);
            Ok(part.len())
        }
    }

    #[test]
    fn blocks_come_in_order() {
        let (done, answered) = channel();
        [2, 0, 3, 1].into_iter().for_each(|number| done.send(Block { number, ..Block::default() }).unwrap());
        drop(done);
        let in_order = InOrder { answered, early: BTreeMap::new(), next: 0 };
        assert!(in_order.map(|block| block.number).eq(0..4));
    }

    /// The blocks that are made of a source.
    fn blocks(source: Parts) -> Vec<(Vec<u8>, bool)> {
        let (give_back, empty) = channel();
        (0..9).for_each(|_| give_back.send(Block::default()).unwrap());
        let mut input = Input::new(Box::new(source), empty);
        std::iter::from_fn(|| input.next()).map(|block| (block.lines, block.error.is_some())).collect()
    }

    #[test]
    fn blocks_are_whole_lines() {
        let parts = Parts(vec![b"0 ", b"1\n2\n3", b" 4", b"\n", b"5"], None);
        let wanted: [&[u8]; 3] = [b"0 1\n2\n", b"3 4\n", b"5"];
        assert_eq!(blocks(parts), wanted.map(|lines| (lines.to_vec(), false)));
    }

    #[test]
    fn an_error_comes_after_what_was_read() {
        let parts = Parts(vec![b"0\n1"], Some(ErrorKind::TimedOut));
        assert_eq!(blocks(parts), [(b"0\n".to_vec(), false), (Vec::new(), true)]);
    }

    #[test]
    fn a_line_that_is_too_long_is_cut() {
        const PART: &[u8] = &[b'1'; ROOM];
        let mut parts = vec![PART; 2 * LONGEST / ROOM];
        parts.extend([&b"\r"[..], b"\n0\n"]);
        let blocks = blocks(Parts(parts, None));
        assert_eq!(blocks.len(), 1);
        assert_eq!(blocks[0].0.len(), LONGEST + 2 + b"\n0\n".len());
    }
}
