//! Files of texts, of any size, worked through on all cores, the answers in input order.
//!
//! One thread reads batches of texts and hands them round to the workers; whoever called takes the answers from the workers in the
//! same round, which is the input's order. All channels are short, so that reading waits for writing: the room does not grow with the file.

use crate::failure::Failure;
use crate::items::{STDIN, Texts, open, standard_input};
use std::path::PathBuf;
use std::sync::mpsc::{Receiver, SyncSender, sync_channel};
use std::thread;

/// How many bytes of texts are worked through at once, at most, about.
const BATCH: usize = 1 << 17;

/// How many batches wait before a worker, and behind it.
const WAITING: usize = 2;

/// Texts of one file, one after another.
pub struct Batch {
    /// Which file, by its place in the list.
    pub file: usize,
    /// The number of the first text in its file, from 1.
    pub first: u64,
    /// How many bytes of input it took.
    pub read: u64,
    texts: Vec<u8>,
    ends: Vec<usize>,
}

impl Batch {
    /// The texts with their numbers.
    pub fn texts(&self) -> impl Iterator<Item = (u64, &[u8])> {
        let starts = std::iter::once(0).chain(self.ends.iter().copied());
        let spans = starts.zip(&self.ends);
        let texts = spans.map(|(start, &end)| &self.texts[start..end]);
        (self.first..).zip(texts)
    }
}

/// Files of texts; none of them is standard input.
pub struct Files {
    pub names: Vec<PathBuf>,
    /// The byte that ends a text.
    pub end: u8,
}

impl Files {
    /// What a file is called in messages.
    pub fn shown(&self, file: usize) -> String {
        match self.names.get(file) {
            Some(name) if name.as_os_str() != "-" => name.display().to_string(),
            _ => STDIN.to_owned(),
        }
    }

    fn read(&self, hand: &mut impl FnMut(Batch) -> bool) -> Result<(), Failure> {
        if self.names.is_empty() {
            let texts = Texts::new(standard_input(), self.end);
            self.read_one(0, texts, hand)?;
            return Ok(());
        }
        for (file, name) in self.names.iter().enumerate() {
            let texts = Texts::new(open(name)?, self.end);
            if !self.read_one(file, texts, hand)? {
                break;
            }
        }
        Ok(())
    }

    /// The batches of one file handed on; whether more are wanted.
    fn read_one(
        &self,
        file: usize,
        mut texts: Texts,
        hand: &mut impl FnMut(Batch) -> bool,
    ) -> Result<bool, Failure> {
        let name = self.shown(file);
        let mut first = 1;
        loop {
            let (batch, more) = next(&mut texts, file, first, &name);
            first += batch.ends.len() as u64;
            if !batch.ends.is_empty() && !hand(batch) {
                return Ok(false);
            }
            if !more? {
                return Ok(true);
            }
        }
    }
}

/// The next batch, and whether there is more behind it. It ends where more would have to be waited for, so that whoever writes a game and
/// waits gets its report. What was read before a failure is in the batch.
fn next(texts: &mut Texts, file: usize, first: u64, name: &str) -> (Batch, Result<bool, Failure>) {
    let before = texts.read;
    let mut batch = Batch {
        file,
        first,
        read: 0,
        texts: Vec::new(),
        ends: Vec::new(),
    };
    let mut more = Ok(true);
    while matches!(more, Ok(true)) {
        more = texts.next_onto(&mut batch.texts, name);
        if let Ok(true) = more {
            batch.ends.push(batch.texts.len());
        }
        let ready = texts.waits() || batch.texts.len() + batch.ends.len() > BATCH;
        if ready && !batch.ends.is_empty() {
            break;
        }
    }
    batch.read = texts.read - before;
    (batch, more)
}

/// A worker's two channels, from without.
type Worker<A> = (SyncSender<Batch>, Receiver<A>);

/// Works through all texts, and hands each batch's answer on, in input order.
pub fn each<A: Send>(
    files: &Files,
    work: impl Fn(Batch) -> A + Sync,
    mut take: impl FnMut(A) -> Result<(), Failure>,
) -> Result<(), Failure> {
    let workers = thread::available_parallelism().map_or(1, usize::from);
    thread::scope(|scope| {
        let start = |_| {
            let (batches, ours) = sync_channel::<Batch>(WAITING);
            let (answers, theirs) = sync_channel::<A>(WAITING);
            let work = &work;
            scope.spawn(move || {
                for batch in ours {
                    if answers.send(work(batch)).is_err() {
                        break;
                    }
                }
            });
            (batches, theirs)
        };
        let started: Vec<Worker<A>> = (0..workers).map(start).collect();
        let (batches, answers): (Vec<_>, Vec<_>) = started.into_iter().unzip();
        let reader = scope.spawn(move || {
            let mut round = batches.iter().cycle();
            files.read(&mut |batch| round.next().is_some_and(|to| to.send(batch).is_ok()))
        });
        let taken = gather(answers, &mut take);
        // A reader that panicked has said so itself.
        let read = reader.join().unwrap_or(Ok(()));
        taken.and(read)
    })
}

/// Takes the answers from the workers in their round, until one has no more: then none has.
fn gather<A>(
    answers: Vec<Receiver<A>>,
    take: &mut impl FnMut(A) -> Result<(), Failure>,
) -> Result<(), Failure> {
    for from in answers.iter().cycle() {
        match from.recv() {
            Ok(answer) => take(answer)?,
            Err(_) => break,
        }
    }
    Ok(())
}
