//! Reads a trace on standard input and prints the report that the original driver gives, with what document 02 changes
//! of it unless it is to run as published.

use musb_oracle::record::HEAD_BYTES;
use musb_oracle::report::{report_tallied, Form};
use musb_oracle::tally::Tally;
use musb_oracle::trace::LONGEST;
use std::io::{self, Read, Write};
use std::process::ExitCode;

const USAGE: &str = "\
usage: oracle [--detail] [--from] [--many] [--tally] [--published] < TRACE
  --detail     stores and record under each entry's line
  --from       the trace stands behind a record: 96 numbers of four bytes, low byte first, and the FIFO's 1,664 bytes
  --many       many traces, each behind its length in four bytes, low byte first; the reports one after the other
  --tally      counts of replies, poll answers and control states in place of the reports
  --published  the original as it was published, with nothing of document 02";

fn main() -> ExitCode {
    match run() {
        Ok(()) => ExitCode::SUCCESS,
        Err(message) => {
            eprintln!("{message}");
            ExitCode::from(2)
        }
    }
}

fn run() -> Result<(), String> {
    let mut form = Form::default();
    let (mut many, mut tallied) = (false, false);
    for argument in std::env::args().skip(1) {
        match argument.as_str() {
            "--detail" => form.detail = true,
            "--from" => form.from_record = true,
            "--many" => many = true,
            "--tally" => tallied = true,
            "--published" => form.published = true,
            _ => return Err(USAGE.to_string()),
        }
    }
    let mut tally = Tally::default();
    let mut stdin = io::stdin().lock();
    let mut stdout = io::BufWriter::new(io::stdout().lock());
    let mut out = Vec::new();
    loop {
        let input = if many {
            next_of_many(&mut stdin)
        } else {
            whole(&mut stdin, form).map(Some)
        };
        let Some(input) = input.map_err(|e| format!("can't read: {e}"))? else {
            break;
        };
        out.clear();
        report_tallied(&input, form, &mut out, &mut tally).ok_or("the input does not begin with a record")?;
        if !tallied {
            stdout.write_all(&out).map_err(|e| format!("can't write: {e}"))?;
        }
        if !many {
            break;
        }
    }
    if tallied {
        write!(stdout, "{tally}").map_err(|e| format!("can't write: {e}"))?;
    }
    stdout.flush().map_err(|e| format!("can't write: {e}"))
}

/// All of the input, or one byte more than is run: no need to read on.
fn whole(stdin: &mut impl Read, form: Form) -> io::Result<Vec<u8>> {
    let head = if form.from_record { HEAD_BYTES } else { 0 };
    let mut input = Vec::new();
    stdin.take((head + LONGEST + 1) as u64).read_to_end(&mut input)?;
    Ok(input)
}

/// The next of many traces, None at the end.
fn next_of_many(stdin: &mut impl Read) -> io::Result<Option<Vec<u8>>> {
    let mut length = [0; 4];
    if stdin.read(&mut length[..1])? == 0 {
        return Ok(None);
    }
    stdin.read_exact(&mut length[1..])?;
    let mut input = vec![0; u32::from_le_bytes(length) as usize];
    stdin.read_exact(&mut input)?;
    Ok(Some(input))
}
