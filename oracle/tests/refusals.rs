//! Replies other than 0, and their order.

mod common;
use common::*;
use musb_oracle::info::FIFO_BYTES;
use musb_oracle::machine::{Machine, Refusal};
use musb_oracle::record::{head_of, record_of};

/// Nothing but the reply, the record and the list as document 01 says of a refusal.
fn refused(before: &Script, call: impl Fn(Script) -> Script, reply: &str) {
    let after = call(before.clone());
    assert_eq!(after.last(), reply);
    assert_eq!(after.stores(), "");
    if !before.report()[1].starts_with("end") {
        assert_eq!(after.record(), before.record());
    }
}

#[test]
fn endpoint_six_in_every_call_and_event() {
    let fresh = Script::new().init();
    for endpoint in [6, 7, 127, 128, 255] {
        refused(&fresh, |s| s.write(endpoint, &[]), "5 8");
        refused(&fresh, |s| s.write(endpoint, &[0; 600]), "5 8");
        refused(&fresh, |s| s.read(endpoint, 64), "6 8");
        refused(&fresh, |s| s.stall(endpoint, IN, 1), "7 8");
        refused(&fresh, |s| s.ask_stalled(endpoint, OUT), "8 8");
        refused(&fresh, |s| s.arrival(endpoint, &[0; 600]), "12 8");
        refused(&fresh, |s| s.collect(endpoint), "13 8");
        refused(&fresh, |s| s.underrun(endpoint), "16 8");
        refused(&fresh, |s| s.overrun(endpoint), "17 8");
    }
    refused(&fresh, |s| s.underrun(0), "16 8");
    refused(&fresh, |s| s.overrun(0), "17 8");
}

#[test]
fn write_longer_than_its_area() {
    let fresh = Script::new().init();
    for (endpoint, area) in [(0, 64), (1, 64), (2, 128), (3, 64), (4, 0), (5, 512)] {
        let longer = vec![0; area + 1];
        refused(&fresh, |s| s.write(endpoint, &longer), "5 9");
        if endpoint != 0 {
            assert_eq!(
                fresh.clone().write(endpoint, &longer[1..]).last(),
                format!("5 0 {area}")
            );
        }
    }
}

#[test]
fn arrival_longer_than_its_area() {
    let fresh = Script::new().init();
    for (endpoint, area) in [(0, 64), (1, 64), (2, 128), (3, 0), (4, 64), (5, 512)] {
        let longer = vec![0; area + 1];
        refused(&fresh, |s| s.arrival(endpoint, &longer), "12 9");
        let fits = fresh.clone().arrival(endpoint, &longer[1..]);
        assert_eq!(fits.last(), "12 0");
        refused(&fits, |s| s.arrival(endpoint, &longer), "12 9");
        refused(&fits, |s| s.arrival(endpoint, &[]), "12 17");
    }
}

#[test]
fn write_tests_6_then_9_then_11() {
    let waiting = Script::new().write(1, &[1]);
    assert_eq!(waiting.write(1, &[0; 65]).last(), "5 6");
    let idle = Script::new().init();
    refused(&idle, |s| s.write(0, &[0; 65]), "5 9");
    refused(&idle, |s| s.write(0, &[1]), "5 11");
    let sending = Script::new().control().request(IN, 100).write(0, &[0; 64]);
    assert_eq!(sending.write(0, &[0; 65]).last(), "5 6");
}

#[test]
fn endpoint_0_write_by_state() {
    refused(&Script::new().request(OUT, 0), |s| s.write(0, &[1]), "5 11");
    for state in [
        Script::new().setup(IN, 5),
        Script::new().request(OUT, 5),
        Script::new().write(0, &[]),
    ] {
        for length in [0, 1, 64] {
            refused(&state, |s| s.write(0, &vec![0; length]), "5 11");
        }
    }
}

#[test]
fn endpoint_0_read_by_state() {
    let packet = [0; 8];
    let idle = Script::new().arrival(0, &packet);
    refused(&idle, |s| s.read(0, 64), "6 12");
    refused(
        &Script::new().control().request(IN, 5).arrival(0, &packet),
        |s| s.read(0, 64),
        "6 12",
    );
    refused(
        &Script::new().request(OUT, 0).arrival(0, &packet),
        |s| s.read(0, 64),
        "6 12",
    );
    refused(
        &Script::new().write(0, &[]).arrival(0, &packet),
        |s| s.read(0, 64),
        "6 12",
    );
    // 6 comes first
    assert_eq!(Script::new().read(0, 0).last(), "6 6");
}

#[test]
fn setup_read_wants_eight_and_eight() {
    let setup = Script::new().setup(IN, 5);
    for buffer in [0, 7] {
        refused(&setup, |s| s.read(0, buffer), "6 13");
    }
    assert_eq!(setup.clone().read(0, 8).last(), "6 0 8 128 1 2 3 4 5 5 0");
    // No call leaves Setup with another packet waiting, but a record can say so.
    let mut record = record_of(&Machine::fresh());
    record[STATE] = SETUP;
    record[CSR0L] = 1;
    for length in [0, 7, 9, 64] {
        record[of(0, RX_LENGTH)] = length;
        let other = Script::behind(head_of(&record, &[0; FIFO_BYTES]));
        for buffer in [0, 8, 64] {
            assert_eq!(other.clone().read(0, buffer).last(), "6 13");
        }
    }
}

/// Document 02, T-02.
#[test]
fn read_into_a_buffer_shorter_than_the_packet() {
    for (endpoint, area) in [(1, 64), (2, 128), (4, 64), (5, 512)] {
        for length in [1, 8, area - 1, area] {
            // Another endpoint is selected, so that a selection would be seen.
            let waiting = Script::new()
                .arrival(endpoint, &vec![7; length as usize])
                .ask_stalled(3, IN);
            refused(&waiting, |s| s.read(endpoint, 0), "6 18");
            refused(&waiting, |s| s.read(endpoint, length - 1), "6 18");
            let whole = waiting.read(endpoint, length).last();
            assert_eq!(whole, format!("6 0 {length}") + &" 7".repeat(length as usize));
        }
    }
}

#[test]
fn data_out_read_into_a_buffer_shorter_than_the_packet() {
    let started = Script::new().control().request(OUT, 100);
    for length in [1, 8, 63, 64] {
        let waiting = started
            .clone()
            .arrival(0, &vec![7; length as usize])
            .ask_stalled(3, IN);
        refused(&waiting, |s| s.read(0, 0), "6 18");
        refused(&waiting, |s| s.read(0, length - 1), "6 18");
        assert_eq!(waiting.read(0, length - 1).state(), DATA_OUT);
    }
}

#[test]
fn read_tests_16_8_6_12_13_then_18() {
    let packet = [0; 8];
    assert_eq!(Script::new().arrival(5, &packet).read(6, 0).last(), "6 8");
    assert_eq!(Script::new().arrival(5, &packet).read(4, 0).last(), "6 6");
    refused(&Script::new().arrival(0, &packet), |s| s.read(0, 0), "6 12");
    refused(&Script::new().setup(OUT, 5), |s| s.read(0, 0), "6 13");
    let mut record = record_of(&Machine::fresh());
    record[of(5, RXCSRL)] = 1;
    record[of(5, RX_LENGTH)] = 513;
    let unsound = Script::behind(head_of(&record, &[0; FIFO_BYTES]));
    assert_eq!(unsound.read(5, 512).last(), "6 16");
}

#[test]
fn a_read_refused_for_its_buffer_touches_no_byte() {
    let mut machine = Machine::fresh();
    machine.arrival(1, &[1, 2, 3]).unwrap();
    let (record, fifo) = (record_of(&machine), machine.model(|m| m.fifo));
    let mut buffer = [255; 2];
    assert_eq!(machine.read(1, &mut buffer), Err(Refusal::BufferOverflow));
    assert_eq!(buffer, [255; 2]);
    assert_eq!(record_of(&machine), record);
    assert_eq!(machine.model(|m| m.fifo), fifo);
    assert!(machine.model(|m| m.stores.is_empty()));
}

#[test]
fn addresses() {
    let fresh = Script::new().init();
    refused(&fresh, |s| s.address(128), "4 14");
    refused(&fresh, |s| s.address(255), "4 14");
    assert_eq!(fresh.address(127).record()[FADDR], 127);
}

#[test]
fn events_out_of_turn() {
    let fresh = Script::new().init();
    refused(&fresh, |s| s.collect(1), "13 17");
    refused(&fresh.arrival(1, &[]), |s| s.arrival(1, &[1]), "12 17");
    assert_eq!(Script::new().write(1, &[]).collect(1).last(), "13 0");
}

#[test]
fn allocation_tests_2_then_5_then_3_then_4() {
    let used = Script::new().allocate_at(3, IN, BULK, 64);
    refused(&used, |s| s.allocate_at(6, OUT, BULK, 65_535), "1 2");
    refused(&used, |s| s.allocate_at(128, OUT, BULK, 64), "1 2");
    refused(&used, |s| s.allocate_at(255, IN, CONTROL, 0), "1 2");
    refused(&used, |s| s.allocate_at(3, OUT, BULK, 65), "1 5");
    refused(&used, |s| s.allocate_at(3, OUT, BULK, 64), "1 3");
    refused(&used, |s| s.allocate_at(3, IN, BULK, 64), "1 4");
}

#[test]
fn used_endpoints() {
    let interrupt_in = Script::new().allocate_at(1, IN, INTERRUPT, 8);
    refused(&interrupt_in, |s| s.allocate_at(1, IN, INTERRUPT, 8), "1 4");
    refused(&interrupt_in, |s| s.allocate_at(1, OUT, ISOCHRONOUS, 8), "1 4");
    refused(&interrupt_in, |s| s.allocate_at(1, OUT, BULK, 8), "1 4");
    assert_eq!(interrupt_in.allocate_at(1, OUT, INTERRUPT, 8).last(), "1 0 1");
    let bulk_in = Script::new().allocate_at(1, IN, BULK, 8);
    refused(&bulk_in, |s| s.allocate_at(1, OUT, BULK, 8), "1 4");
}

#[test]
fn what_no_trace_can_ask() {
    let machine = Machine::fresh();
    let before = record_of(&machine);
    assert_eq!(machine.force_reset(), Err(Refusal::Unsupported));
    machine.suspend_and_resume();
    assert_eq!(record_of(&machine), before);
    assert!(Machine::address_before_status());
}

#[test]
fn unsound_records() {
    let fresh = record_of(&Machine::fresh());
    let spoiled = [
        (FADDR, 128),
        (INDEX, 6),
        (EP_TX, 64),
        (EP_RX, 32_768),
        (of(0, TX_LENGTH), 1),
        (of(0, RX_LENGTH), 1),
        (of(5, TX_LENGTH), 1),
        (of(5, RX_LENGTH), 513),
    ];
    for (place, number) in spoiled {
        let mut record = fresh;
        record[place] = number;
        let script = Script::behind(head_of(&record, &[0; FIFO_BYTES]))
            .allocate(OUT, BULK, 64)
            .init()
            .reset()
            .address(200)
            .write(6, &[])
            .read(6, 0)
            .stall(6, IN, 1)
            .ask_stalled(6, IN)
            .poll()
            .interrupt()
            .enable()
            .arrival(6, &[])
            .collect(6)
            .bus_reset()
            .setup_end()
            .underrun(0)
            .overrun(0);
        for line in script.lasts(17) {
            assert!(line.ends_with(" 16"), "{line}");
        }
        assert_eq!(script.record(), record);
        assert_eq!(script.stores(), "");
    }
}

#[test]
fn waiting_lengths_at_their_area_are_sound() {
    let mut record = record_of(&Machine::fresh());
    record[of(5, TXCSRL)] = 3;
    record[of(5, TX_LENGTH)] = 512;
    record[of(2, RXCSRL)] = 1;
    record[of(2, RX_LENGTH)] = 128;
    let sound = Script::behind(head_of(&record, &[7; FIFO_BYTES]));
    assert!(sound.clone().collect(5).last().starts_with("13 0 7 7"));
    assert!(sound.read(2, 128).last().starts_with("6 0 128 7 7 7"));
    record[of(5, TX_LENGTH)] = 513;
    assert_eq!(
        Script::behind(head_of(&record, &[7; FIFO_BYTES])).poll().last(),
        "9 16"
    );
}
