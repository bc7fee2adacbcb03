//! The comparison: this program's answers beside another program's, input by input, byte by byte.

use crate::make::{self, Program};
use crate::output::Output;
use crate::tally::Tally;
use std::io::{self, Read, Write};
use std::process::{Command, Stdio};
use std::sync::mpsc::{self, Receiver};
use std::time::{Duration, Instant};

/// Another program that takes longer than this for one input is taken to hang.
const PATIENCE: Duration = Duration::from_secs(60);

/// How much of an input or output is shown.
const SHOWN: usize = 2_000;

pub struct Plan {
    /// The programs that are asked, and where each of them is.
    pub others: Vec<(Program, String)>,
    pub from: u64,
    pub count: u64,
    pub seconds: Option<u64>,
    pub need_all: bool,
}

/// Compares seed by seed; answers whether all went well.
pub fn compare(plan: &Plan) -> bool {
    let begun = Instant::now();
    let mut tally = Tally::default();
    let mut compared = 0u64;
    for seed in plan.from..plan.from.saturating_add(plan.count) {
        if plan.seconds.is_some_and(|seconds| begun.elapsed() >= Duration::from_secs(seconds)) {
            println!("stopped early at seed {seed}: the time given is used up");
            return false;
        }
        let program = make::program_of(seed);
        let Some((_, other)) = plan.others.iter().find(|(named, _)| *named == program) else { continue };
        let input = make::input(program, seed);
        let ours = program.answer(&input);
        let theirs = ask(program, other, &input);
        compared += 1;
        if theirs.as_ref() != Ok(&ours) {
            show_difference(program, seed, &input, &ours, &theirs);
            return false;
        }
        tally.add(program, &input, &ours);
    }
    tally.print();
    let missing = tally.missing();
    let complete = !plan.need_all || missing.is_empty();
    if !complete {
        println!("these did not occur: {}", missing.join(", "));
    }
    println!("{compared} compared, 0 different");
    complete
}

/// Runs the other program on an input. An error says in words why it has no output. Standard error is caught only where the
/// program tells something there; else it is left to whoever looks on.
fn ask(program: Program, path: &str, input: &[u8]) -> Result<Output, String> {
    let error = if program.tells_on_error() { Stdio::piped() } else { Stdio::inherit() };
    let mut child = Command::new(path)
        .stdin(Stdio::piped())
        .stdout(Stdio::piped())
        .stderr(error)
        .spawn()
        .map_err(|error| format!("{path} can't be started: {error}"))?;
    let (mut stdin, stdout) = match (child.stdin.take(), child.stdout.take()) {
        (Some(stdin), Some(stdout)) => (stdin, stdout),
        _ => return Err(format!("{path} has no pipes")),
    };
    // Writing and reading each have a thread: with one after the other both sides could wait on a full pipe.
    let bytes = input.to_vec();
    let writer = std::thread::spawn(move || {
        // A program may rightly stop reading early, so a broken pipe is no fault.
        let _ = stdin.write_all(&bytes);
    });
    let out = read_aside(stdout);
    let err = child.stderr.take().map(read_aside);
    let deadline = Instant::now() + PATIENCE;
    let out = all_read(out, deadline);
    let err = err.map_or(Ok(Vec::new()), |err| all_read(err, deadline));
    if out.is_err() || err.is_err() {
        let _ = child.kill();
    }
    let status = child.wait();
    let _ = writer.join();
    let output = Output { out: out?, err: err? };
    match status {
        // No code at all means that a signal ended it: it crashed, whatever it printed before.
        Ok(status) if status.code().is_none() => Err(format!("it crashed: {status}")),
        Ok(_) => Ok(output),
        Err(error) => Err(format!("it can't be waited for: {error}")),
    }
}

/// Reads a pipe to its end in a thread of its own.
fn read_aside(mut pipe: impl Read + Send + 'static) -> Receiver<io::Result<Vec<u8>>> {
    let (send, receive) = mpsc::channel();
    std::thread::spawn(move || {
        let mut bytes = Vec::new();
        let read = pipe.read_to_end(&mut bytes).map(|_| bytes);
        let _ = send.send(read);
    });
    receive
}

/// All that was read of a pipe, if its end came in time.
fn all_read(pipe: Receiver<io::Result<Vec<u8>>>, deadline: Instant) -> Result<Vec<u8>, String> {
    match pipe.recv_timeout(deadline.saturating_duration_since(Instant::now())) {
        Ok(read) => read.map_err(|error| format!("its output can't be read: {error}")),
        Err(_) => Err(format!("it gave no whole output in {} seconds", PATIENCE.as_secs())),
    }
}

fn show_difference(
    program: Program,
    seed: u64,
    input: &[u8],
    ours: &Output,
    theirs: &Result<Output, String>,
) {
    let name = program.name();
    println!("seed {seed}, {name}: different");
    println!("--- input, {} bytes", input.len());
    println!("{}", shown(program, input));
    show_output("second's", ours, program);
    match theirs {
        Ok(theirs) => {
            show_output("the other's", theirs, program);
            let same = ours.out.iter().zip(&theirs.out).take_while(|(a, b)| a == b).count();
            if ours.out != theirs.out {
                println!("--- they differ from byte {same} on (counted from 0)");
            }
        }
        Err(error) => println!("--- the other gave none: {error}"),
    }
    println!("--- the input again: second make {name} {seed}");
}

fn show_output(whose: &str, output: &Output, program: Program) {
    println!("--- {whose} output, {} bytes", output.out.len());
    println!("{}", shown(program, &output.out));
    if program.tells_on_error() {
        println!("--- {whose} standard error, {} bytes", output.err.len());
        println!("{}", shown_text(&output.err));
    }
}

fn shown(program: Program, bytes: &[u8]) -> String {
    match program {
        Program::Aisle | Program::Calls | Program::KeepDepth => shown_text(bytes),
        Program::Renew => shown_file(bytes),
    }
}

/// A table file in hexadecimal, of a long one its end, where the trailer is.
fn shown_file(bytes: &[u8]) -> String {
    let left_out = bytes.len().saturating_sub(SHOWN / 3);
    let mut words: Vec<String> = bytes[left_out..].iter().map(|byte| format!("{byte:02X}")).collect();
    if left_out > 0 {
        words.insert(0, "...".into());
    }
    words.join(" ")
}

fn shown_text(bytes: &[u8]) -> String {
    let text = String::from_utf8_lossy(bytes);
    match text.char_indices().nth(SHOWN) {
        Some((end, _)) => format!("{} ...", &text[..end]),
        None => text.into_owned(),
    }
}
