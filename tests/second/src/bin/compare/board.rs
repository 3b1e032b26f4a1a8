//! The board's process: calls go to it in large batches, and another thread
//! compares its answers with the second program's.

use crate::applies;
use crate::call::{Call, Said, Stated, BUILD, NAMES, SUBMIT};
use crate::editions;
use crate::numbers::Numbers;
use crate::senses;
use crate::show;
use crate::trouble;
use std::collections::HashSet;
use std::io::{self, Read, Write};
use std::process::{Child, ChildStdin, ChildStdout, Command, Stdio};
use std::sync::atomic::{AtomicBool, Ordering};
use std::sync::mpsc::{sync_channel, Receiver, SyncSender};
use std::sync::Arc;
use std::thread::JoinHandle;

/// Numbers below this one come back.
pub const NUMBERS: usize = 24;
/// A batch is sent when it has so many bytes.
const BATCH: usize = 128 << 10;
/// So many differences of a class are printed in full.
const PRINTED: u64 = 2;

/// Calls that are sent together, and the answers that are to come.
#[derive(Default)]
struct Batch {
    requests: Vec<u8>,
    answers: Vec<u8>,
    /// Where each call's request and answer start.
    starts: Vec<(usize, usize)>,
    /// The class that all its calls belong to.
    class: usize,
    name: &'static str,
}

/// A named class of inputs, and what came of it.
pub struct Class {
    pub name: &'static str,
    pub calls: u64,
    /// The numbers that were given: bit n for number n.
    pub numbers: u32,
}

pub struct Board {
    command: Vec<String>,
    child: Child,
    input: Option<ChildStdin>,
    batch: Batch,
    jobs: Option<SyncSender<Batch>>,
    reader: Option<JoinHandle<Vec<u64>>>,
    differs: Arc<AtomicBool>,
    stop_at_first: bool,
    /// The classes that are compared have names that begin so.
    only: String,
    pub classes: Vec<Class>,
    /// How often each function gave each number.
    pub counts: [[u64; NUMBERS]; NAMES.len()],
    /// The sets of refusals that applied to a call of each function.
    pub applied: Vec<HashSet<applies::Set>>,
    /// Calls that were not answered with the first refusal that applies.
    pub not_first: u64,
    /// The kinds of forms in which each function gave each number: bit n for
    /// form n, bit 3 for all numbers that state none but 0.
    pub formed: [[u8; NUMBERS]; NAMES.len()],
    /// The kinds of editions in which submit gave each number, likewise.
    pub editions: [u8; NUMBERS],
    /// From which the form and the edition come of a call that leaves them open.
    open: Numbers,
}

fn spawn(command: &[String]) -> io::Result<(Child, ChildStdin, ChildStdout)> {
    let mut child = Command::new(&command[0])
        .args(&command[1..])
        .stdin(Stdio::piped())
        .stdout(Stdio::piped())
        .spawn()?;
    let none = || trouble("the board has no pipes");
    let input = child.stdin.take().ok_or_else(none)?;
    let output = child.stdout.take().ok_or_else(none)?;
    Ok((child, input, output))
}

impl Board {
    pub fn start(command: &[String], stop_at_first: bool, only: &str) -> io::Result<Board> {
        let (child, input, output) = spawn(command)?;
        let (jobs, work) = sync_channel(4);
        let differs = Arc::new(AtomicBool::new(false));
        let comparison = Comparison {
            command: command.to_vec(),
            differs: differs.clone(),
            found: Vec::new(),
            output,
        };
        Ok(Board {
            command: command.to_vec(),
            child,
            input: Some(input),
            batch: Batch::default(),
            jobs: Some(jobs),
            reader: Some(std::thread::spawn(move || comparison.run(work))),
            differs,
            stop_at_first,
            only: only.to_string(),
            classes: Vec::new(),
            counts: [[0; NUMBERS]; NAMES.len()],
            applied: vec![HashSet::new(); NAMES.len()],
            not_first: 0,
            formed: [[0; NUMBERS]; NAMES.len()],
            editions: [0; NUMBERS],
            open: Numbers::new(0),
        })
    }

    /// The calls that follow belong to this class.
    pub fn class(&mut self, name: &'static str) {
        self.send();
        self.classes.push(Class {
            name,
            calls: 0,
            numbers: 0,
        });
    }

    /// Whether nothing more needs to be tried.
    pub fn is_done(&self) -> bool {
        self.stop_at_first && self.differs.load(Ordering::Relaxed)
    }

    /// Makes a call of both programs, or of the second alone where the class is
    /// not compared.
    pub fn call(&mut self, call: &Call) -> Said {
        let at = self.classes.len() - 1;
        let stated = self.state(call);
        if !self.classes[at].name.starts_with(&self.only) {
            return call.answer(stated, &mut Vec::new());
        }
        let batch = &mut self.batch;
        (batch.class, batch.name) = (at, self.classes[at].name);
        let start = (batch.requests.len(), batch.answers.len());
        batch.starts.push(start);
        call.encode(stated, &mut batch.requests);
        let said = call.answer(stated, &mut batch.answers);
        self.classes[at].calls += 1;
        self.classes[at].numbers |= 1 << said.number;
        self.count(call, stated, said.number);
        if self.batch.requests.len() >= BATCH {
            self.send();
        }
        said
    }

    /// What the call states, and any of what it leaves open.
    fn state(&mut self, call: &Call) -> Stated {
        let open = &mut self.open;
        let form = call.form.unwrap_or_else(|| senses::any(open));
        let edition = match (call.function, call.edition) {
            (SUBMIT | BUILD, None) => editions::any(open),
            (_, edition) => edition.unwrap_or(0),
        };
        Stated { form, edition }
    }

    /// Notes the number given, and in which form and edition it was.
    fn count(&mut self, call: &Call, stated: Stated, number: u8) {
        let Stated { form, edition } = stated;
        let function = usize::from(call.function);
        let set = applies::to(call, edition);
        if call.function == SUBMIT {
            self.editions[usize::from(number)] |= 1 << edition.min(3);
        }
        self.counts[function][usize::from(number)] += 1;
        self.formed[function][usize::from(number)] |= 1 << form.min(3);
        self.not_first += u64::from(applies::first(set) != u32::from(number));
        self.applied[function].insert(set);
    }

    /// Sends the batch. A board that has ended is noticed by the comparison.
    fn send(&mut self) {
        let batch = std::mem::take(&mut self.batch);
        if batch.starts.is_empty() || self.is_done() {
            return;
        }
        let mut bytes = (batch.requests.len() as u32).to_le_bytes().to_vec();
        bytes.extend(&batch.requests);
        if let Some(jobs) = &self.jobs {
            let _ = jobs.send(batch);
        }
        if let Some(input) = &mut self.input {
            let _ = input.write_all(&bytes);
        }
    }

    /// Waits for all answers. Back: the differences of each class.
    pub fn finish(&mut self) -> io::Result<Vec<u64>> {
        self.send();
        self.jobs = None;
        self.input = None;
        let reader = self.reader.take();
        let joined = reader.map(JoinHandle::join);
        let mut found = match joined {
            Some(Ok(found)) => found,
            _ => return Err(trouble("the comparison ended early")),
        };
        found.resize(self.classes.len(), 0);
        let ended = self.child.wait()?;
        if !ended.success() && found.iter().sum::<u64>() == 0 {
            let name = &self.command[self.command.len() - 1];
            return Err(trouble(format!("{name} ended with {ended}")));
        }
        Ok(found)
    }
}

struct Comparison {
    command: Vec<String>,
    differs: Arc<AtomicBool>,
    found: Vec<u64>,
    output: ChildStdout,
}

impl Comparison {
    fn run(mut self, work: Receiver<Batch>) -> Vec<u64> {
        let mut ended = false;
        for batch in work {
            let mut answers = vec![0; batch.answers.len()];
            if ended {
                continue;
            }
            if self.output.read_exact(&mut answers).is_err() {
                ended = true;
                self.find_the_end(&batch);
            } else if answers != batch.answers {
                self.find(&batch, &answers);
            }
        }
        self.found
    }

    /// The calls of a batch whose answers differ.
    fn find(&mut self, batch: &Batch, answers: &[u8]) {
        for at in 0..batch.starts.len() {
            let (_, wanted) = batch.part(at);
            let start = batch.starts[at].1;
            let given = &answers[start..start + wanted.len()];
            if given != wanted {
                self.report(batch, at, Some(given));
            }
        }
    }

    /// The board ended: makes the batch's calls one by one, until it ends.
    fn find_the_end(&mut self, batch: &Batch) {
        let mut talk = Talk::start(&self.command);
        for at in 0..batch.starts.len() {
            let (request, wanted) = batch.part(at);
            let given = talk.as_mut().map(|talk| talk.ask(request, wanted.len()));
            match given {
                Ok(Ok(given)) if given == wanted => {}
                Ok(Ok(given)) => self.report(batch, at, Some(&given)),
                _ => return self.report(batch, at, None),
            }
        }
        println!("the board ended in a batch, but for none of its calls alone; the first is");
        self.report(batch, 0, None);
    }

    fn report(&mut self, batch: &Batch, at: usize, given: Option<&[u8]>) {
        self.differs.store(true, Ordering::Relaxed);
        if self.found.len() <= batch.class {
            self.found.resize(batch.class + 1, 0);
        }
        self.found[batch.class] += 1;
        if self.found[batch.class] <= PRINTED {
            let (request, wanted) = batch.part(at);
            let head = format!("DIFFERENCE in class \"{}\"", batch.name);
            print!("{}", show::both(&head, request, wanted, given));
        }
    }
}

impl Batch {
    /// Of a call: its request, and the answer that is to come.
    fn part(&self, at: usize) -> (&[u8], &[u8]) {
        let (request, answer) = self.starts[at];
        let (request_end, answer_end) = match self.starts.get(at + 1) {
            Some(&next) => next,
            None => (self.requests.len(), self.answers.len()),
        };
        (
            &self.requests[request..request_end],
            &self.answers[answer..answer_end],
        )
    }
}

/// A board that is asked one call at a time.
pub struct Talk {
    child: Child,
    input: ChildStdin,
    output: ChildStdout,
}

impl Talk {
    pub fn start(command: &[String]) -> io::Result<Talk> {
        let (child, input, output) = spawn(command)?;
        Ok(Talk {
            child,
            input,
            output,
        })
    }

    /// The board's answer, which has so many bytes.
    pub fn ask(&mut self, request: &[u8], size: usize) -> io::Result<Vec<u8>> {
        let mut answer = vec![0; size];
        self.input
            .write_all(&(request.len() as u32).to_le_bytes())?;
        self.input.write_all(request)?;
        self.output.read_exact(&mut answer)?;
        Ok(answer)
    }
}

impl Drop for Talk {
    fn drop(&mut self) {
        let _ = self.child.kill();
        let _ = self.child.wait();
    }
}
