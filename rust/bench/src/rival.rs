//! libxml2's time for a question. It can be minutes, so it is measured by a child process, which is ended when it takes too long.

use crate::libxml2::Library;
use crate::source::Source;
use crate::xml::to_xml;
use crate::{timing, Failure};
use std::io::{BufRead, BufReader};
use std::process::{Child, Command, Stdio};
use std::sync::mpsc::{channel, Receiver, RecvTimeoutError};
use std::time::Duration;

/// How long libxml2 may take for one question.
pub const LIMIT: Duration = Duration::from_secs(20);

/// How long the child process may take to read the tree, which is not measured.
const READING: Duration = Duration::from_secs(60);

/// What the child says when the tree is read.
const READY: &str = "ready";

pub enum Outcome {
    Took(Duration),
    OverLimit,
    NotInstalled,
}

/// libxml2's time for the question. It has to find as many nodes as there are records.
pub fn ask(source: Source, question: &str, records: usize) -> Result<Outcome, Failure> {
    if Library::load().is_none() {
        return Ok(Outcome::NotInstalled);
    }
    let mut child = start(source, question).map_err(|error| format!("The child process could not be started: {error}."))?;
    let lines = lines_of(&mut child);
    let outcome = heard(&lines, records).map_err(|failure| format!("{failure} The question was {question}."));
    // It has ended already unless it took too long.
    let _ = child.kill();
    let _ = child.wait();
    outcome
}

fn start(source: Source, question: &str) -> std::io::Result<Child> {
    let program = std::env::current_exe()?;
    Command::new(program).arg(question).args(source.to_words()).stdout(Stdio::piped()).spawn()
}

/// The child's lines as they come.
fn lines_of(child: &mut Child) -> Receiver<String> {
    let (sender, receiver) = channel();
    let output = child.stdout.take().expect("the child's output is piped");
    std::thread::spawn(move || BufReader::new(output).lines().map_while(Result::ok).try_for_each(|line| sender.send(line)));
    receiver
}

/// Takes the child's two lines apart: that it is ready, and then the number of nodes with the nanoseconds.
fn heard(lines: &Receiver<String>, records: usize) -> Result<Outcome, Failure> {
    if lines.recv_timeout(READING).ok().as_deref() != Some(READY) {
        return Err("libxml2 did not read the tree.".into());
    }
    // Whatever takes long is run once, so that the second line comes after one run of it.
    let line = match lines.recv_timeout(LIMIT) {
        Ok(line) => line,
        Err(RecvTimeoutError::Timeout) => return Ok(Outcome::OverLimit),
        Err(RecvTimeoutError::Disconnected) => return Err("libxml2's process ended without a result.".into()),
    };
    let numbers: Vec<u64> = line.split(' ').filter_map(|word| word.parse().ok()).collect();
    let [nodes, nanoseconds] = numbers[..] else { return Err("libxml2 gave no nodes.".into()) };
    if nodes != records as u64 {
        return Err(format!("libxml2 found {nodes} nodes and the library {records} records."));
    }
    Ok(Outcome::Took(Duration::from_nanos(nanoseconds)))
}

/// The child process: the words are the question and what the day is made from.
pub fn serve(words: &[String]) -> Result<(), Failure> {
    let (question, source) = words.split_first().ok_or("A question is missing.")?;
    let source = Source::from_words(source).ok_or("What the day is made from is not understood.")?;
    let library = Library::load().ok_or("libxml2 is not installed.")?;
    let xpath = question.replace("[//", "[.//");
    let prepared = library.prepare(&to_xml(&source.day()), &xpath).ok_or("libxml2 refuses the tree or the question.")?;
    println!("{READY}");
    let mut nodes = None;
    let time = timing::alone(|| nodes = prepared.count());
    println!("{} {}", nodes.ok_or("libxml2 gives no set of nodes.")?, time.as_nanos());
    Ok(())
}
