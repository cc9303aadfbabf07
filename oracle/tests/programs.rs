//! The programs themselves, the generator and the shrinker.

use musb_oracle::generator::{generate, Kind};
use musb_oracle::machine::Machine;
use musb_oracle::record::{head_of, put_head, record_of};
use musb_oracle::report::{report, Form};
use musb_oracle::shrink::shrink;
use musb_oracle::trace::LONGEST;
use std::io::Write;
use std::process::{Command, Output, Stdio};

const EXAMPLE: [u8; 17] = [1, 0, 0, 2, 64, 12, 1, 2, 7, 9, 9, 10, 9, 6, 1, 64, 9];

fn run(program: &str, arguments: &[&str], input: &[u8]) -> Output {
    let mut child = Command::new(program)
        .args(arguments)
        .stdin(Stdio::piped())
        .stdout(Stdio::piped())
        .stderr(Stdio::piped())
        .spawn()
        .unwrap();
    let _ = child.stdin.take().unwrap().write_all(input);
    child.wait_with_output().unwrap()
}

fn oracle(arguments: &[&str], input: &[u8]) -> String {
    let output = run(env!("CARGO_BIN_EXE_oracle"), arguments, input);
    assert!(output.status.success());
    String::from_utf8(output.stdout).unwrap()
}

#[test]
fn oracle_prints_the_report() {
    let report = oracle(&[], &EXAMPLE);
    assert_eq!(
        report,
        "musb-trace 1\n1 0 1\n12 0\n9 0 0\n10 0\n9 0 1 2 0 0\n6 0 2 7 9\n9 0 0\nend 7\n"
    );
    assert_eq!(oracle(&[], &vec![9; LONGEST + 1]), "musb-trace 1\nbad 65536\n");
}

#[test]
fn oracle_prints_the_detail_report() {
    let unused = "0 0 0 0 0 0 0 0 2 0 0 0 0";
    let wanted = format!(
        "musb-trace 1\n8 0 0\n  stores 3,2,2\n  record 0 0 2 0 0 0 0 0 0 0 {} 0 0 0 0 0 0 0 0\nend 1\n",
        [unused; 6].join(" ")
    );
    assert_eq!(oracle(&["--detail"], &[8, 2, 1]), wanted);
}

#[test]
fn oracle_runs_many() {
    let mut many = Vec::new();
    for trace in [&EXAMPLE[..], &[], &[0]] {
        many.extend((trace.len() as u32).to_le_bytes());
        many.extend(trace);
    }
    let joined = oracle(&[], &EXAMPLE) + &oracle(&[], &[]) + &oracle(&[], &[0]);
    assert_eq!(oracle(&["--many"], &many), joined);
}

/// A run leaves nothing behind for the next: not the chip, not the fields, not the statics.
#[test]
fn runs_are_apart() {
    let before = oracle(&["--detail"], &EXAMPLE);
    for kind in Kind::ALL.into_iter().filter(|kind| !kind.from_record()) {
        for number in 0..40 {
            report(&generate(kind, 3, number, 100), Form::default(), &mut Vec::new()).unwrap();
            let mut after = Vec::new();
            let form = Form {
                detail: true,
                ..Form::default()
            };
            report(&EXAMPLE, form, &mut after).unwrap();
            assert_eq!(String::from_utf8(after).unwrap(), before);
        }
    }
}

#[test]
fn a_head_gives_the_record_back() {
    for number in 0..200 {
        let input = generate(Kind::Record, 5, number, 1);
        let (record, fifo) = {
            let mut machine = Machine::fresh();
            put_head(&mut machine, &input[..2_048]).expect("no record");
            (record_of(&machine), machine.model(|m| m.fifo))
        };
        assert_eq!(head_of(&record, &fifo), input[..2_048]);
    }
}

#[test]
fn what_is_no_record_is_refused() {
    let fresh = head_of(&record_of(&Machine::fresh()), &[0; 1_664]);
    for (place, number) in [
        (0, 256),
        (9, 8),
        (10, 1),
        (23, 1),
        (24, 2),
        (31, 4),
        (34, 2),
        (88, 6),
        (94, 65_536),
    ] {
        let mut head = fresh.clone();
        head[4 * place..4 * place + 4].copy_from_slice(&u32::to_le_bytes(number));
        assert!(
            put_head(&mut Machine::fresh(), &head).is_none(),
            "{number} at {place}"
        );
    }
    assert!(put_head(&mut Machine::fresh(), &fresh[1..]).is_none());
    assert!(put_head(&mut Machine::fresh(), &fresh).is_some());
}

#[test]
fn generated_traces_are_the_same_every_time() {
    for kind in Kind::ALL {
        for number in [0, 1, 500] {
            assert_eq!(generate(kind, 1, number, 50), generate(kind, 1, number, 50));
        }
    }
    assert_ne!(
        generate(Kind::Uniform, 1, 0, 50),
        generate(Kind::Uniform, 2, 0, 50)
    );
    assert_ne!(
        generate(Kind::Uniform, 1, 0, 50),
        generate(Kind::Uniform, 1, 1, 50)
    );
}

#[test]
fn generated_traces_are_whole() {
    for kind in [Kind::Uniform, Kind::Session, Kind::Guided, Kind::Boundary] {
        for entries in [50, 20_000] {
            let trace = generate(kind, 1, 1, entries);
            assert!(trace.len() <= LONGEST);
            let mut out = Vec::new();
            report(&trace, Form::default(), &mut out).unwrap();
            let text = String::from_utf8(out).unwrap();
            assert!(text.lines().last().unwrap().starts_with("end "));
        }
    }
}

#[test]
fn shrinking_keeps_what_matters() {
    let polls_after_resume = |trace: &[u8]| {
        let mut out = Vec::new();
        report(trace, Form::default(), &mut out).unwrap();
        out.windows(7).any(|line| line == b"\n9 0 3\n")
    };
    let trace = (0..)
        .map(|n| generate(Kind::Guided, 1, n, 100))
        .find(|t| polls_after_resume(t))
        .unwrap();
    let smallest = shrink(&trace, false, 3_000, polls_after_resume);
    assert_eq!(smallest, [14, 2, 10, 9]);
}

/// Runs the comparison with a directory of its own for what differs.
fn compare(name: &str, arguments: &[&str]) -> Output {
    let keep = std::env::temp_dir().join(format!("musb-compare-{}-{name}", std::process::id()));
    let mut all = vec!["--quiet", "--traces", "40", "--keep", keep.to_str().unwrap()];
    all.extend(arguments);
    let output = run(env!("CARGO_BIN_EXE_compare"), &all, &[]);
    let _ = std::fs::remove_dir_all(keep);
    output
}

#[test]
fn compare_agrees_with_itself() {
    let oracle = env!("CARGO_BIN_EXE_oracle");
    let output = compare(
        "same",
        &[
            &format!("RUNNER={oracle}"),
            &format!("DETAIL={oracle} --detail"),
            &format!("FROM={oracle} --from"),
            &format!("FROM_DETAIL={oracle} --from --detail"),
        ],
    );
    assert_eq!(String::from_utf8(output.stdout).unwrap(), "40 agree, 0 differ\n");
    assert!(output.status.success());
}

#[test]
fn compare_finds_a_wrong_copy() {
    let oracle = env!("CARGO_BIN_EXE_oracle");
    // A copy that answers Reset where Resume is due.
    let output = compare("wrong", &[&format!("RUNNER={oracle} | sed 's/^9 0 3$/9 0 2/'")]);
    let last = String::from_utf8(output.stdout).unwrap();
    assert!(!last.ends_with(" 0 differ\n"), "{last}");
    assert_eq!(output.status.code(), Some(1));
    let story = String::from_utf8(output.stderr).unwrap();
    assert!(story.contains("original: 9 0 3\n  other:    9 0 2"), "{story}");
}
