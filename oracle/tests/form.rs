//! The form of a trace: numbers, cuts, ranges, length.

mod common;
use common::*;
use musb_oracle::trace::LONGEST;

fn lines(trace: &[u8]) -> Vec<String> {
    Script::new().raw(trace).report()
}

/// The last line for an entry that stands behind two polls.
fn last_line(entry: &[u8]) -> String {
    lines(&[&[9, 9], entry].concat()).pop().unwrap()
}

#[test]
fn empty_input() {
    assert_eq!(lines(&[]), ["musb-trace 1", "end 0"]);
}

#[test]
fn bad_gives_the_offset_and_nothing_after() {
    assert_eq!(lines(&[9, 0, 9]), ["musb-trace 1", "9 0 0", "bad 1"]);
    assert_eq!(lines(&[0]), ["musb-trace 1", "bad 0"]);
}

#[test]
fn unknown_codes() {
    for code in [0, 18, 19, 127] {
        assert_eq!(last_line(&[code]), "bad 2");
    }
    assert_eq!(last_line(&[0x89, 0x01]), "bad 2"); // 137
}

#[test]
fn numbers_in_another_form() {
    assert_eq!(last_line(&[0x89, 0x00]), "bad 2"); // code 9 in two bytes
    assert_eq!(last_line(&[4, 0x80, 0x00]), "bad 2"); // address 0 in two bytes
    assert_eq!(last_line(&[4, 0xff, 0x01]), "end 3"); // address 255
    assert_eq!(last_line(&[1, 0, 0, 2, 0xff, 0xff, 0x03]), "end 3"); // size 65,535
    assert_eq!(last_line(&[1, 0, 0, 2, 0x80, 0x80, 0x04]), "bad 2"); // 65,536
    assert_eq!(last_line(&[1, 0, 0, 2, 0xff, 0xff, 0x83, 0x00]), "bad 2"); // 65,535 in four bytes
    assert_eq!(last_line(&[1, 0, 0, 2, 0x80, 0x80, 0x00]), "bad 2"); // 0 in three bytes
}

#[test]
fn every_cut() {
    let entries: [&[u8]; 17] = [
        &[1, 0, 0x80, 0x02, 2, 0xff, 0xff, 0x03],
        &[2],
        &[3],
        &[4, 0xff, 0x01],
        &[5, 1, 3, 1, 2, 3],
        &[6, 1, 0x80, 0x04],
        &[7, 1, 1, 1],
        &[8, 1, 1],
        &[9],
        &[10],
        &[11],
        &[12, 1, 3, 1, 2, 3],
        &[13, 1],
        &[14, 2],
        &[15],
        &[16, 1],
        &[17, 1],
    ];
    for entry in entries {
        assert_eq!(last_line(entry), "end 3");
        for cut in 1..entry.len() {
            assert_eq!(last_line(&entry[..cut]), "bad 2", "{entry:?} cut at {cut}");
        }
    }
}

#[test]
fn ranges() {
    let good: [&[u8]; 7] = [
        &[1, 1, 0x80, 0x02, 3, 0],
        &[4, 0xff, 0x01],
        &[6, 0xff, 0x01, 0x80, 0x04],
        &[7, 0, 1, 1],
        &[13, 0xff, 0x01],
        &[14, 2],
        &[8, 5, 1],
    ];
    for entry in good {
        assert_eq!(last_line(entry), "end 3", "{entry:?}");
    }
    let bad: [&[u8]; 11] = [
        &[1, 2, 0, 2, 64],
        &[1, 0, 0x81, 0x02, 2, 64],
        &[1, 0, 0, 4, 64],
        &[4, 0x80, 0x02],
        &[6, 0, 0x81, 0x04],
        &[6, 0x80, 0x02, 0],
        &[7, 0, 2, 0],
        &[7, 0, 0, 2],
        &[8, 0, 2],
        &[13, 0x80, 0x02],
        &[14, 3],
    ];
    for entry in bad {
        assert_eq!(last_line(entry), "bad 2", "{entry:?}");
    }
}

#[test]
fn form_comes_before_meaning() {
    assert_eq!(last_line(&[5, 7, 2, 1]), "bad 2");
    assert_eq!(lines(&[5, 7, 2, 1, 1]), ["musb-trace 1", "5 8", "end 1"]);
}

#[test]
fn packet_bytes_stand_raw() {
    let script = Script::new().arrival(1, &[0x80, 0xff, 0]).read(1, 64);
    assert_eq!(script.last(), "6 0 3 128 255 0");
}

#[test]
fn the_longest_input() {
    let polls = lines(&vec![9; LONGEST]);
    assert_eq!(polls.len(), LONGEST + 2);
    assert_eq!(polls[LONGEST + 1], "end 65536");
    assert_eq!(lines(&vec![9; LONGEST + 1]), ["musb-trace 1", "bad 65536"]);
    let mut cut = vec![9; LONGEST];
    cut[LONGEST - 1] = 4;
    assert_eq!(lines(&cut).pop().unwrap(), "bad 65535");
}
