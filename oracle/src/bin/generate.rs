//! Writes traces made from a seed, into a directory or into one file.

use musb_oracle::generator::{generate, kinds_named, ENTRIES};
use std::fs::{self, File};
use std::io::{self, BufWriter, Write};
use std::path::Path;
use std::process::ExitCode;

const USAGE: &str = "\
usage: generate KIND SEED COUNT OUT [ENTRIES]
  KIND     uniform, session, guided, boundary, damaged, record; several with commas between; or all (but record)
  OUT      a directory, for one file a trace; or a file (- for standard output), each trace behind its length
           in four bytes, low byte first, as `oracle --many` reads it
  ENTRIES  how many entries a trace has on average (100)";

fn main() -> ExitCode {
    let arguments: Vec<String> = std::env::args().skip(1).collect();
    match run(&arguments) {
        Some(Ok(())) => ExitCode::SUCCESS,
        Some(Err(error)) => {
            eprintln!("can't write: {error}");
            ExitCode::from(2)
        }
        None => {
            eprintln!("{USAGE}");
            ExitCode::from(2)
        }
    }
}

/// None where the arguments are not understood.
fn run(arguments: &[String]) -> Option<io::Result<()>> {
    let (needed, more) = arguments.split_at_checked(4)?;
    let kinds = kinds_named(&needed[0])?;
    let seed = needed[1].parse().ok()?;
    let count: u64 = needed[2].parse().ok()?;
    let entries = match more {
        [] => ENTRIES,
        [entries] => entries.parse().ok().filter(|&n| n > 0)?,
        _ => return None,
    };
    let traces = (0..count).map(|i| {
        let kind = kinds[(i % kinds.len() as u64) as usize];
        let number = i / kinds.len() as u64;
        let name = format!("{}-{seed}-{number:06}.trace", kind.name());
        (name, generate(kind, seed, number, entries))
    });
    let out = &needed[3];
    Some(if out.ends_with('/') || Path::new(out).is_dir() {
        into_directory(Path::new(out), traces)
    } else if out == "-" {
        into_file(io::stdout().lock(), traces)
    } else {
        File::create(out).and_then(|file| into_file(file, traces))
    })
}

fn into_directory(out: &Path, traces: impl Iterator<Item = (String, Vec<u8>)>) -> io::Result<()> {
    fs::create_dir_all(out)?;
    for (name, trace) in traces {
        fs::write(out.join(name), trace)?;
    }
    Ok(())
}

fn into_file(out: impl Write, traces: impl Iterator<Item = (String, Vec<u8>)>) -> io::Result<()> {
    let mut out = BufWriter::new(out);
    for (_, trace) in traces {
        out.write_all(&(trace.len() as u32).to_le_bytes())?;
        out.write_all(&trace)?;
    }
    out.flush()
}
