//! Store lists: register, selected endpoint, value, in the order of the original.

mod common;
use common::*;
use musb_oracle::info::FIFO_BYTES;
use musb_oracle::machine::Machine;
use musb_oracle::record::{head_of, record_of};

#[test]
fn init() {
    assert_eq!(Script::new().init().stores(), "14,0,7 13,0,254 12,0,255");
    // "the current selection" (reading 6)
    assert_eq!(
        Script::new().ask_stalled(2, IN).init().stores(),
        "14,2,7 13,2,254 12,2,255"
    );
}

#[test]
fn addresses() {
    assert_eq!(Script::new().address(127).stores(), "1,0,127");
    assert_eq!(Script::new().address(5).enable().stores(), "1,0,0");
}

#[test]
fn empty_poll_selects_each_endpoint() {
    let script = Script::new().poll();
    assert_eq!(script.stores(), "3,1,1 3,2,2 3,3,3 3,4,4 3,5,5");
    assert_eq!(script.record()[INDEX], 5);
}

#[test]
fn poll_repairs_an_underrun_with_a_packet_waiting() {
    let script = Script::new().write(3, &[1, 2]).underrun(3).poll();
    assert_eq!(script.stores(), "3,1,1 3,2,2 3,3,3 6,3,3 3,4,4 3,5,5");
    assert_eq!(script.record()[of(3, TXCSRL)], 3);
    let empty = Script::new().underrun(2).poll();
    assert_eq!(empty.stores(), "3,1,1 3,2,2 6,2,0 3,3,3 3,4,4 3,5,5");
}

#[test]
fn poll_repairs_an_overrun_and_keeps_the_packet() {
    let script = Script::new().arrival(4, &[9]).overrun(4).poll();
    assert_eq!(script.stores(), "3,1,1 3,2,2 3,3,3 3,4,4 7,4,1 3,5,5");
    assert_eq!(script.record()[of(4, RX_LENGTH)], 1);
}

#[test]
fn poll_takes_setup_and_walks_flags() {
    assert_eq!(
        Script::new().setup(IN, 5).stores(),
        "3,1,1 3,2,2 3,3,3 3,4,4 3,5,5 3,0,0 4,0,129"
    );
    let walk = Script::new().arrival(2, &[]).arrival(5, &[]).interrupt().poll();
    assert_eq!(walk.stores(), "3,1,1 3,2,2 3,3,3 3,4,4 3,5,5 3,2,2 3,5,5");
}

#[test]
fn write_lists_a_packet_as_one_store() {
    assert_eq!(Script::new().write(1, &[1, 2, 3]).stores(), "3,1,1 15,1,3 6,1,1");
    assert_eq!(Script::new().write(5, &[7; 512]).stores(), "3,5,5 15,5,512 6,5,1");
    // "none if empty"
    assert_eq!(Script::new().write(1, &[]).stores(), "3,1,1 6,1,1");
}

#[test]
fn would_block_lists_its_selection_only() {
    let write = Script::new().write(2, &[1]).poll().write(2, &[2]);
    assert_eq!((write.last().as_str(), write.stores().as_str()), ("5 6", "3,2,2"));
    let read = Script::new().read(4, 64);
    assert_eq!((read.last().as_str(), read.stores().as_str()), ("6 6", "3,4,4"));
    assert_eq!(read.record()[INDEX], 4);
}

#[test]
fn control_read() {
    let script = Script::new().control().request(IN, 70);
    assert_eq!(script.stores(), "3,0,0 4,0,65");
    let first = script.write(0, &[0; 64]);
    assert_eq!(first.stores(), "3,0,0 15,0,64 4,0,2");
    let last = first.collect(0).write(0, &[0; 6]);
    assert_eq!(last.stores(), "3,0,0 15,0,6 4,0,2 4,0,10");
}

#[test]
fn control_write_ends_with_data_end() {
    let script = Script::new()
        .control()
        .request(OUT, 3)
        .arrival(0, &[1, 2, 3])
        .interrupt()
        .poll();
    assert_eq!(script.clone().read(0, 64).stores(), "3,0,0 4,0,65 4,0,8");
}

#[test]
fn stalls() {
    assert_eq!(Script::new().stall(0, IN, 1).stores(), "3,0,0 4,0,32");
    assert_eq!(Script::new().stall(0, OUT, 1).stores(), "3,0,0 4,0,96");
    assert_eq!(Script::new().stall(0, OUT, 0).stores(), "3,0,0 4,0,0");
    assert_eq!(Script::new().stall(2, IN, 1).stores(), "3,2,2 6,2,16");
    assert_eq!(Script::new().stall(2, IN, 0).stores(), "3,2,2 6,2,64");
    assert_eq!(Script::new().stall(2, OUT, 1).stores(), "3,2,2 7,2,32");
    assert_eq!(Script::new().stall(2, OUT, 0).stores(), "3,2,2 7,2,128");
    assert_eq!(Script::new().ask_stalled(2, OUT).stores(), "3,2,2");
}

#[test]
fn stalling_out_drops_the_packet_and_stalling_in_keeps_it() {
    let out = Script::new().arrival(1, &[1]).stall(1, OUT, 1).read(1, 64);
    assert_eq!(out.last(), "6 6");
    let in_kept = Script::new().write(1, &[8]).stall(1, IN, 1).collect(1);
    assert_eq!(in_kept.last(), "13 0 8");
}

#[test]
fn reset_enables_endpoint_0_on_each_side() {
    let script = Script::new()
        .init()
        .allocate_at(0, OUT, CONTROL, 64)
        .setup(IN, 9)
        .reset();
    assert_eq!(script.stores(), "2,0,1 3,0,0 12,0,255 4,0,193 5,0,1");
    assert_eq!((script.state(), script.record()[CSR0L]), (IDLE, 0));
}

#[test]
fn reset_flushes_a_waiting_packet_twice() {
    let script = Script::new().allocate_at(3, IN, BULK, 64).write(3, &[1]).reset();
    assert_eq!(script.stores(), "2,3,1 3,3,3 12,3,8 10,3,64 6,3,64 6,3,11 6,3,8");
    assert_eq!(script.record()[of(3, TX_LENGTH)], 0);
}

#[test]
fn reset_drops_a_received_packet_by_clearing_its_toggle() {
    // So the flush after it never runs (reading 16).
    let script = Script::new()
        .allocate_at(4, OUT, ISOCHRONOUS, 64)
        .arrival(4, &[1])
        .reset();
    assert_eq!(script.stores(), "2,0,1 3,4,4 13,4,16 11,4,64 7,4,128 9,4,64");
    assert_eq!(script.record()[of(4, RX_LENGTH)], 0);
}

/// Every direction of the table, isochronous, with a packet waiting on every transmit side.
#[test]
fn reset_from_a_fresh_record_lists_at_most_57() {
    let mut script = Script::new().control();
    for endpoint in 1..6 {
        for direction in [OUT, IN] {
            script = script.allocate_at(endpoint, direction, ISOCHRONOUS, 64);
        }
    }
    for endpoint in [1, 2, 3, 5] {
        script = script.write(endpoint, &[1]);
    }
    script = script.reset();
    assert_eq!(script.stores().split(' ').count(), 57);
}

/// The same with both directions used of endpoints 3 and 4, which only a record that is lent can have.
#[test]
fn reset_of_any_sound_record_lists_at_most_69() {
    let mut record = record_of(&Machine::fresh());
    for endpoint in 0..6 {
        let e = &mut record[of(endpoint, 0)..of(endpoint + 1, 0)];
        e[TXCSRL] = if endpoint == 0 { 0 } else { 3 };
        e[8] = ISOCHRONOUS;
        (e[11], e[12]) = (1, 1);
    }
    let script = Script::behind(head_of(&record, &[0; FIFO_BYTES])).reset();
    assert_eq!(script.stores().split(' ').count(), 69);
}
