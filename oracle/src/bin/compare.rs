//! Compares other programs with the original driver on generated or stored traces, and keeps the
//! smallest trace on which one differs.

use musb_oracle::generator::{generate, kinds_named, Kind, ENTRIES};
use musb_oracle::record::{HEAD_BYTES, NUMBERS};
use musb_oracle::report::{report, report_tallied, Form};
use musb_oracle::shrink::shrink;
use musb_oracle::tally::Tally;
use musb_oracle::trace::{Next, Reader};
use std::fs;
use std::io::{Read, Write};
use std::path::{Path, PathBuf};
use std::process::{Command, ExitCode, Stdio};

const USAGE: &str = "\
usage: compare [OPTION]... NAME=COMMAND... [FILE]...
Runs each COMMAND (through sh) with a trace on its standard input and compares what it prints:
  RUNNER=       with the report
  DETAIL=       with the detail report
  FROM=         with the report of a trace that stands behind a record
  FROM_DETAIL=  with the detail report of the same
Options:
  --traces N    how many traces (200)
  --entries N   entries a trace on average (100)
  --seed N      (1)
  --kinds LIST  kinds of trace, with commas between (all); FROM and FROM_DETAIL get the kind record
  --keep DIR    where the smallest differing trace goes (differing)
  --tries N     how many smaller traces may be tried for one that differs (3000)
  --first       stop at the first trace that differs
  --quiet       no counts, only the last line
FILEs are stored traces to run in place of generated ones; behind a record each, where FROM or FROM_DETAIL is asked.
The last line is `N agree, M differ`, in traces; the exit code is 1 where any differs.";

/// Seconds that a program may take over one trace.
const PATIENCE: &str = "120";

/// How many differing traces are made smaller.
const SHRUNK: usize = 3;

struct Program {
    name: String,
    command: String,
    form: Form,
    differing: u64,
}

struct Task {
    programs: Vec<Program>,
    files: Vec<PathBuf>,
    traces: u64,
    entries: usize,
    seed: u64,
    kinds: Vec<Kind>,
    keep: PathBuf,
    tries: usize,
    first: bool,
    quiet: bool,
}

fn main() -> ExitCode {
    let arguments: Vec<String> = std::env::args().skip(1).collect();
    let Some(task) = understood(&arguments) else {
        eprintln!("{USAGE}");
        return ExitCode::from(2);
    };
    match compare(task) {
        Ok(0) => ExitCode::SUCCESS,
        Ok(_) => ExitCode::from(1),
        Err(message) => {
            eprintln!("compare: {message}");
            ExitCode::from(2)
        }
    }
}

fn understood(arguments: &[String]) -> Option<Task> {
    let mut task = Task {
        programs: Vec::new(),
        files: Vec::new(),
        traces: 200,
        entries: ENTRIES,
        seed: 1,
        kinds: kinds_named("all")?,
        keep: PathBuf::from("differing"),
        tries: 3_000,
        first: false,
        quiet: false,
    };
    let mut rest = arguments.iter();
    while let Some(argument) = rest.next() {
        match argument.as_str() {
            "--traces" => task.traces = rest.next()?.parse().ok()?,
            "--entries" => task.entries = rest.next()?.parse().ok().filter(|&n| n > 0)?,
            "--seed" => task.seed = rest.next()?.parse().ok()?,
            "--kinds" => task.kinds = kinds_named(rest.next()?)?,
            "--keep" => task.keep = rest.next()?.into(),
            "--tries" => task.tries = rest.next()?.parse().ok()?,
            "--first" => task.first = true,
            "--quiet" => task.quiet = true,
            option if option.starts_with("--") => return None,
            other => match program(other) {
                Some(program) => task.programs.push(program),
                None => task.files.push(other.into()),
            },
        }
    }
    (!task.programs.is_empty()).then_some(task)
}

/// `NAME=COMMAND`, with one of the four names.
fn program(argument: &str) -> Option<Program> {
    let (name, command) = argument.split_once('=')?;
    let form = match name {
        "RUNNER" => (false, false),
        "DETAIL" => (true, false),
        "FROM" => (false, true),
        "FROM_DETAIL" => (true, true),
        _ => return None,
    };
    Some(Program {
        name: name.to_string(),
        command: command.to_string(),
        form: Form {
            detail: form.0,
            from_record: form.1,
            ..Form::default()
        },
        differing: 0,
    })
}

/// Runs the whole comparison and answers how many traces differ.
fn compare(mut task: Task) -> Result<u64, String> {
    let (mut agree, mut differ) = (0, 0);
    let mut tally = Tally::default();
    let mut kept = Kept::new(&task.keep, task.tries);
    for (input, from_record) in inputs(&task)? {
        let mut same = true;
        for program in &mut task.programs {
            if program.form.from_record != from_record {
                continue;
            }
            if differs(program, &input)? {
                same = false;
                program.differing += 1;
                kept.consider(program, &input)?;
            }
        }
        let form = Form {
            from_record,
            ..Form::default()
        };
        report_tallied(&input, form, &mut Vec::new(), &mut tally).ok_or("not behind a record")?;
        if same {
            agree += 1;
        } else {
            differ += 1;
            if task.first {
                break;
            }
        }
    }
    if !task.quiet {
        print!("{tally}");
        for program in &task.programs {
            println!("{}: {} differ", program.name, program.differing);
        }
    }
    println!("{agree} agree, {differ} differ");
    Ok(differ)
}

type Inputs = Box<dyn Iterator<Item = (Vec<u8>, bool)>>;

/// The inputs to run, and whether each stands behind a record.
fn inputs(task: &Task) -> Result<Inputs, String> {
    let from_record = |program: &Program| program.form.from_record;
    if !task.files.is_empty() {
        let behind = task.programs.iter().any(from_record);
        let read = |file: &PathBuf| fs::read(file).map_err(|e| format!("{}: {e}", file.display()));
        let traces: Vec<Vec<u8>> = task.files.iter().map(read).collect::<Result<_, _>>()?;
        return Ok(Box::new(traces.into_iter().map(move |trace| (trace, behind))));
    }
    let mut kinds: Vec<Kind> = Vec::new();
    if !task.programs.iter().all(from_record) {
        kinds.extend(task.kinds.iter().filter(|kind| !kind.from_record()));
    }
    if task.programs.iter().any(from_record) {
        kinds.push(Kind::Record);
    }
    if kinds.is_empty() {
        return Err("no kind of trace for these programs".to_string());
    }
    let (seed, entries, each) = (task.seed, task.entries, kinds.len() as u64);
    Ok(Box::new((0..task.traces).map(move |i| {
        let kind = kinds[(i % each) as usize];
        (generate(kind, seed, i / each, entries), kind.from_record())
    })))
}

fn differs(program: &Program, input: &[u8]) -> Result<bool, String> {
    Ok(printed(program, input)? != expected(program, input)?)
}

fn expected(program: &Program, input: &[u8]) -> Result<Vec<u8>, String> {
    let mut out = Vec::new();
    report(input, program.form, &mut out).ok_or("the input does not begin with a record")?;
    Ok(out)
}

/// What the program prints for an input. One that does not end in time is stopped.
fn printed(program: &Program, input: &[u8]) -> Result<Vec<u8>, String> {
    let mut child = Command::new("timeout")
        .args([PATIENCE, "sh", "-c", &program.command])
        .stdin(Stdio::piped())
        .stdout(Stdio::piped())
        .spawn()
        .map_err(|e| format!("can't start {}: {e}", program.name))?;
    let mut stdin = child.stdin.take().ok_or("no standard input")?;
    let mut stdout = child.stdout.take().ok_or("no standard output")?;
    let mut out = Vec::new();
    std::thread::scope(|scope| {
        // A program may stop reading before the end (input too long): that is no error here.
        scope.spawn(move || stdin.write_all(input));
        stdout.read_to_end(&mut out)
    })
    .map_err(|e| format!("can't read from {}: {e}", program.name))?;
    let status = child.wait().map_err(|e| format!("{}: {e}", program.name))?;
    match status.code() {
        Some(126 | 127) => Err(format!("{} can't be run: {}", program.name, program.command)),
        _ => Ok(out),
    }
}

/// The smallest differing trace so far.
struct Kept<'a> {
    directory: &'a Path,
    tries: usize,
    shrunk: usize,
    size: Option<usize>,
}

impl<'a> Kept<'a> {
    fn new(directory: &'a Path, tries: usize) -> Kept<'a> {
        Kept {
            directory,
            tries,
            shrunk: 0,
            size: None,
        }
    }

    /// Makes a differing input smaller and keeps it if none smaller was met.
    fn consider(&mut self, program: &Program, input: &[u8]) -> Result<(), String> {
        let mut smallest = input.to_vec();
        if self.shrunk < SHRUNK {
            self.shrunk += 1;
            smallest = shrink(input, program.form.from_record, self.tries, |smaller| {
                differs(program, smaller).unwrap_or(false)
            });
        }
        if self.size.is_none_or(|size| smallest.len() < size) {
            self.size = Some(smallest.len());
            self.write(program, &smallest)?;
        }
        Ok(())
    }

    fn write(&self, program: &Program, input: &[u8]) -> Result<(), String> {
        let (wanted, found) = (expected(program, input)?, printed(program, input)?);
        let story = story(program, input, &wanted, &found);
        let files: [(&str, &[u8]); 4] = [
            ("smallest.trace", input),
            ("smallest.original", &wanted),
            ("smallest.other", &found),
            ("smallest.txt", story.as_bytes()),
        ];
        fs::create_dir_all(self.directory).map_err(|e| e.to_string())?;
        for (name, bytes) in files {
            fs::write(self.directory.join(name), bytes).map_err(|e| e.to_string())?;
        }
        eprintln!("{}", story.trim_end());
        Ok(())
    }
}

/// The difference in words: the entries, and the first line that differs.
fn story(program: &Program, input: &[u8], wanted: &[u8], found: &[u8]) -> String {
    let (head, trace) = input.split_at(if program.form.from_record { HEAD_BYTES } else { 0 });
    let mut story = format!(
        "{} differs on this trace of {} bytes:\n",
        program.name,
        trace.len()
    );
    if program.form.from_record {
        story += "behind the record";
        for number in head[..4 * NUMBERS].chunks_exact(4).flat_map(<[u8; 4]>::try_from) {
            story += &format!(" {}", u32::from_le_bytes(number));
        }
        story += "\n";
    }
    story + &entries_in_words(trace) + &first_difference(wanted, found)
}

fn entries_in_words(trace: &[u8]) -> String {
    let mut words = String::new();
    let mut reader = Reader::new(trace);
    loop {
        match reader.next_entry() {
            Next::Entry(entry) => words += &format!("  {:2} {entry:?}\n", entry.code()),
            Next::End => return words,
            Next::Bad(offset) => return words + &format!("  bad at {offset}\n"),
        }
    }
}

/// The first line that differs. What follows the last newline counts as a line too, so that a newline
/// that is missing is seen.
fn first_difference(wanted: &[u8], found: &[u8]) -> String {
    let (wanted, found) = (String::from_utf8_lossy(wanted), String::from_utf8_lossy(found));
    let (mut wanted, mut found) = (wanted.split('\n'), found.split('\n'));
    let mut number = 1;
    loop {
        let (original, other) = (wanted.next(), found.next());
        if original != other || original.is_none() {
            let shown = |line: Option<&str>| line.unwrap_or("(ended before)").to_string();
            let (original, other) = (shown(original), shown(other));
            return format!("line {number} of the report\n  original: {original}\n  other:    {other}\n");
        }
        number += 1;
    }
}
