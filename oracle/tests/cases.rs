//! Document 01's worked example and its P cases, through traces.

mod common;
use common::*;

#[test]
fn worked_example() {
    let input = [1, 0, 0, 2, 64, 12, 1, 2, 7, 9, 9, 10, 9, 6, 1, 64, 9];
    let lines = [
        "musb-trace 1",
        "1 0 1",
        "12 0",
        "9 0 0",
        "10 0",
        "9 0 1 2 0 0",
        "6 0 2 7 9",
        "9 0 0",
        "end 7",
    ];
    assert_eq!(Script::new().raw(&input).report(), lines);
}

#[test]
fn p1_p2_no_number() {
    let p1 = Script::new().allocate(OUT, BULK, 64);
    assert_eq!(p1.last(), "1 0 1");
    assert_eq!(p1.allocate(IN, INTERRUPT, 64).last(), "1 0 2");
}

#[test]
fn p3_p4_p5_by_size() {
    assert_eq!(Script::new().allocate(IN, BULK, 128).last(), "1 0 2");
    assert_eq!(Script::new().allocate(IN, BULK, 129).last(), "1 0 5");
    assert_eq!(Script::new().allocate(IN, BULK, 513).last(), "1 1");
}

#[test]
fn p6_p7_p8_wanted() {
    assert_eq!(Script::new().allocate_at(4, IN, BULK, 65).last(), "1 5");
    assert_eq!(Script::new().allocate_at(4, IN, BULK, 64).last(), "1 3");
    assert_eq!(Script::new().allocate_at(6, IN, BULK, 64).last(), "1 2");
}

#[test]
fn p9_endpoint_0_is_never_checked() {
    let twice = Script::new()
        .allocate_at(0, OUT, CONTROL, 65_535)
        .allocate_at(0, OUT, CONTROL, 65_535);
    assert_eq!(twice.lasts(2), ["1 0 0", "1 0 0"]);
}

#[test]
fn p10_same_type_shares_a_number() {
    let both = Script::new()
        .allocate_at(2, IN, INTERRUPT, 64)
        .allocate_at(2, OUT, INTERRUPT, 64);
    assert_eq!(both.lasts(2), ["1 0 2", "1 0 2"]);
    assert_eq!(both.allocate_at(2, OUT, BULK, 64).last(), "1 4");
}

#[test]
fn p11_more_than_remains() {
    let script = Script::new().control().request(IN, 5).write(0, &[0; 6]);
    assert_eq!(script.last(), "5 0 6");
    assert_eq!((script.state(), script.remaining()), (IDLE, 0));
}

#[test]
fn p12_transmit_size() {
    let started = Script::new().control().request(IN, 65);
    let full = started.clone().write(0, &[0; 64]);
    assert_eq!((full.state(), full.remaining()), (DATA_IN, 1));
    let short = started.write(0, &[0; 63]);
    assert_eq!((short.state(), short.remaining()), (IDLE, 0));
}

#[test]
fn p13_receive_size() {
    let packet = |script: Script, length: usize| {
        let read = script.arrival(0, &vec![0; length]).interrupt().poll().read(0, 64);
        assert_eq!(read.last().split(' ').nth(1), Some("0"));
        read.state()
    };
    let started = Script::new().control().request(OUT, 200);
    assert_eq!(packet(started.clone(), 64), DATA_OUT);
    assert_eq!(packet(started, 63), IDLE);
    let without_size = Script::new().request(OUT, 200);
    for length in [0, 1, 63, 64] {
        assert_eq!(packet(without_size.clone(), length), DATA_OUT);
    }
}

#[test]
fn p14_p15_one_round_clears_the_highest_drained() {
    let named = Script::new().arrival(1, &[1]).arrival(5, &[5]).interrupt();
    let both = named.clone().read(1, 64).read(5, 64).poll().poll();
    assert_eq!(both.lasts(2), ["9 0 1 2 0 0", "9 0 0"]);
    let first_only = named.read(1, 64).poll();
    assert_eq!(first_only.last(), "9 0 1 32 0 0");
}

#[test]
fn p16_reset_resume_none() {
    let script = Script::new()
        .bus_reset()
        .resume()
        .interrupt()
        .poll()
        .poll()
        .poll();
    assert_eq!(script.lasts(3), ["9 0 2", "9 0 3", "9 0 0"]);
}

/// Document 02, T-06.
#[test]
fn suspend_is_told_once_and_puts_down_its_own_flag() {
    let suspended = Script::new().suspend().interrupt().poll();
    assert_eq!(suspended.last(), "9 0 4");
    assert_eq!(suspended.record()[SUSPEND_FLAG], 0);
    let goes_on = suspended.arrival(1, &[1]).interrupt().poll().read(1, 64).poll();
    assert_eq!(goes_on.lasts(3), ["9 0 1 2 0 0", "6 0 1 1", "9 0 0"]);
    let again = goes_on.suspend().interrupt().poll().poll();
    assert_eq!(again.lasts(2), ["9 0 4", "9 0 0"]);
    let all = Script::new().suspend().resume().bus_reset().interrupt();
    assert_eq!(
        all.poll().poll().poll().poll().lasts(4),
        ["9 0 2", "9 0 3", "9 0 4", "9 0 0"]
    );
}

/// What T-06 changes.
#[test]
fn the_original_as_published_stays_asleep() {
    let suspended = Script::published().suspend().interrupt().poll();
    assert_eq!(suspended.last(), "9 0 4");
    assert_eq!(suspended.record()[SUSPEND_FLAG], 1);
    assert_eq!(suspended.record()[RESET_FLAG], 0);
    assert_eq!(
        suspended.arrival(1, &[1]).interrupt().poll().poll().lasts(2),
        ["9 0 4", "9 0 4"]
    );
}

#[test]
fn setup_without_data_is_nodata_for_either_direction() {
    for direction in [OUT, IN] {
        let script = Script::new().request(direction, 0);
        assert_eq!(script.state(), NODATA_PHASE);
        assert_eq!(script.stores(), "3,0,0 4,0,65 4,0,8");
        let done = script.write(0, &[]).poll();
        assert_eq!(done.lasts(2), ["5 0 0", "9 0 1 0 1 0"]);
    }
}

#[test]
fn accepted_reports_the_empty_packet_as_sent() {
    let accepted = Script::new().write(0, &[]);
    assert_eq!(accepted.state(), ACCEPTED);
    let polled = accepted.poll();
    assert_eq!(polled.last(), "9 0 1 0 1 0");
    assert_eq!(polled.state(), IDLE);
}

#[test]
fn accepted_puts_off_a_packet_of_endpoint_0() {
    // The flag of the last data packet is still up when the status packet is written.
    let script = Script::new()
        .control()
        .request(OUT, 4)
        .arrival(0, &[1, 2, 3, 4])
        .interrupt()
        .poll()
        .read(0, 64)
        .write(0, &[]);
    assert_eq!((script.state(), script.record()[EP_RX]), (ACCEPTED, 1));
    let polled = script.poll();
    assert_eq!(polled.last(), "9 0 1 0 1 0");
    assert_eq!((polled.record()[EP0_FLAG], polled.record()[EP_RX]), (1, 0));
}

#[test]
fn setup_end_begins_the_next_transfer() {
    let script = Script::new().control().request(IN, 100).setup_end().setup(OUT, 0);
    assert_eq!(script.last(), "9 0 1 0 0 1");
    assert_eq!((script.state(), script.remaining()), (SETUP, 0));
    assert!(script.stores().ends_with("3,0,0 4,0,145"), "{}", script.stores());
}

/// Document 02, T-02.
#[test]
fn a_read_that_is_done_gives_the_whole_packet() {
    let arrived = Script::new().arrival(1, &[1, 2, 3, 4, 5]);
    for buffer in [5, 6, 64, 512] {
        let read = arrived.clone().read(1, buffer).read(1, buffer);
        assert_eq!(read.lasts(2), ["6 0 5 1 2 3 4 5", "6 6"]);
    }
    let empty = Script::new().arrival(1, &[]);
    for buffer in [0, 64] {
        let read = empty.clone().read(1, buffer).read(1, buffer);
        assert_eq!(read.lasts(2), ["6 0 0", "6 6"]);
    }
}

#[test]
fn a_refused_packet_is_read_whole_by_the_next_read_with_room() {
    let row = [11, 12, 13];
    let refused = Script::new().arrival(5, &row).interrupt().poll().read(5, 2);
    assert_eq!(refused.lasts(2), ["9 0 1 32 0 0", "6 18"]);
    assert_eq!(refused.clone().read(5, 3).last(), "6 0 3 11 12 13");
    // Named by every poll, and in the way of the next packet.
    let later = refused.poll().arrival(5, &[9]).arrival(1, &[7]).write(5, &[8]);
    assert_eq!(later.lasts(4), ["9 0 1 32 0 0", "12 17", "12 0", "5 0 1"]);
    let later = later
        .interrupt()
        .read(5, 0)
        .read(1, 1)
        .collect(5)
        .read(5, 2)
        .poll();
    assert_eq!(
        later.lasts(5),
        ["6 18", "6 0 1 7", "13 0 8", "6 18", "9 0 1 32 0 0"]
    );
    let read = later.read(5, 3).poll().arrival(5, &[9]).read(5, 512);
    assert_eq!(read.lasts(4), ["6 0 3 11 12 13", "9 0 0", "12 0", "6 0 1 9"]);
}

#[test]
fn data_out_goes_on_once_there_is_room() {
    let arrived = Script::new()
        .control()
        .request(OUT, 67)
        .arrival(0, &[1; 64])
        .interrupt()
        .poll();
    let refused = arrived.read(0, 63).poll();
    assert_eq!(refused.lasts(2), ["6 18", "9 0 1 1 0 0"]);
    assert_eq!(refused.state(), DATA_OUT);
    let last = refused.read(0, 64).arrival(0, &[2, 3, 4]).interrupt().poll();
    assert_eq!(last.last(), "9 0 1 1 0 0");
    assert_eq!(last.clone().read(0, 2).state(), DATA_OUT);
    let ended = last.read(0, 2).read(0, 3);
    assert_eq!(ended.lasts(2), ["6 18", "6 0 3 2 3 4"]);
    assert_eq!(ended.state(), IDLE);
}

/// What T-02 changes.
#[test]
fn the_original_as_published_cuts_the_packet() {
    let arrived = Script::published().arrival(1, &[1, 2, 3, 4, 5]);
    assert_eq!(arrived.clone().read(1, 3).last(), "6 0 5 1 2 3");
    assert_eq!(arrived.clone().read(1, 0).last(), "6 0 5");
    assert_eq!(arrived.read(1, 0).read(1, 64).last(), "6 6");
}
