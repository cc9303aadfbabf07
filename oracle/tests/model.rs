//! Document 01's register model, rule by rule, without the original.

use embassy_usb_driver::Direction;
use musb_oracle::info::{area_size, area_start, COUNT, FIFO_BYTES};
use musb_oracle::model::{BusEvent, Model};
use musb_oracle::regs::regs::*;
use musb_oracle::regs::{Load, Store};

/// A model with an endpoint selected.
fn at(endpoint: u8) -> Model {
    let mut model = Model::fresh();
    model.index = endpoint;
    model
}

#[test]
fn areas() {
    let mut next = 0;
    let mut starts = Vec::new();
    for endpoint in 0..COUNT {
        for direction in [Direction::In, Direction::Out] {
            assert_eq!(area_start(endpoint, direction), next);
            starts.push(next);
            next += area_size(endpoint, direction);
        }
    }
    assert_eq!(next, FIFO_BYTES);
    assert_eq!(
        starts,
        [0, 64, 128, 192, 256, 384, 512, 576, 576, 576, 640, 1_152]
    );
}

#[test]
fn csr0l_each_bit() {
    for read in 0..=255u8 {
        let mut m = at(0);
        (m.rx[0].ready, m.rx[0].length) = (true, 8);
        (m.tx[0].ready, m.tx[0].length) = (read & 1 != 0, 0);
        m.control.sent_stall = true;
        m.control.setup_end = true;
        m.control.send_stall = read & 2 != 0;
        let was_sending = m.tx[0].ready;
        let written = Csr0l(read);
        written.store(&mut m);
        assert_eq!(m.control.send_stall, written.send_stall());
        assert_eq!(m.control.sent_stall, written.sent_stall());
        assert_eq!(m.tx[0].ready, was_sending || written.tx_pkt_rdy());
        assert_eq!(m.rx[0].ready, !written.serviced_rx_pkt_rdy());
        assert_eq!(m.rx[0].length, if written.serviced_rx_pkt_rdy() { 0 } else { 8 });
        assert_eq!(m.control.setup_end, !written.serviced_setup_end());
        let back = Csr0l::load(&mut m);
        assert!(!back.data_end() && !back.serviced_rx_pkt_rdy() && !back.serviced_setup_end());
    }
}

#[test]
fn csr0l_sets_nothing_but_ready_and_stall() {
    let mut m = at(0);
    Csr0l(255).store(&mut m);
    assert_eq!(Csr0l::load(&mut m).0, 0b10_0010);
}

#[test]
fn csr0h_flushes_both_sides() {
    let mut m = at(0);
    (m.rx[0].ready, m.rx[0].length) = (true, 8);
    (m.tx[0].ready, m.tx[0].length) = (true, 5);
    Csr0h(0).store(&mut m);
    assert!(m.rx[0].ready && m.tx[0].ready);
    Csr0h(1).store(&mut m);
    assert!(!m.rx[0].ready && !m.tx[0].ready);
    assert_eq!((m.rx[0].length, m.tx[0].length), (0, 0));
    assert_eq!(Csr0h::load(&mut m).0, 0);
}

#[test]
fn txcsrl_each_bit() {
    for number in 0..=255u8 {
        for ready in [false, true] {
            let mut m = at(2);
            let side = &mut m.tx[2];
            (side.ready, side.length) = (ready, if ready { 3 } else { 0 });
            (side.sent_stall, side.fault, side.send_stall) = (true, true, true);
            let written = Txcsrl(number);
            written.store(&mut m);
            let side = &m.tx[2];
            assert_eq!(side.send_stall, written.send_stall());
            assert_eq!(side.sent_stall, written.sent_stall());
            assert_eq!(side.fault, written.under_run());
            let kept = !written.flush_fifo();
            assert_eq!(side.ready, kept && (ready || written.tx_pkt_rdy()));
            assert_eq!(side.length, if kept && ready { 3 } else { 0 });
            let back = Txcsrl::load(&mut m);
            assert_eq!(back.fifo_not_empty(), back.tx_pkt_rdy());
            assert!(!back.flush_fifo() && !back.clr_data_tog() && back.0 < 128);
        }
    }
}

#[test]
fn rxcsrl_each_bit() {
    for number in 0..=255u8 {
        for ready in [false, true] {
            let mut m = at(5);
            let side = &mut m.rx[5];
            (side.ready, side.length) = (ready, if ready { 3 } else { 0 });
            (side.sent_stall, side.fault, side.send_stall) = (true, true, false);
            let written = Rxcsrl(number);
            written.store(&mut m);
            let side = &m.rx[5];
            assert_eq!(side.send_stall, written.send_stall());
            assert_eq!(side.sent_stall, written.sent_stall());
            assert_eq!(side.fault, written.over_run());
            let kept = ready && written.rx_pkt_rdy() && !written.flush_fifo();
            assert_eq!((side.ready, side.length), (kept, if kept { 3 } else { 0 }));
            let back = Rxcsrl::load(&mut m);
            assert!(!back.fifo_full() && !back.data_error() && !back.flush_fifo() && !back.clr_data_tog());
        }
    }
}

#[test]
fn a_written_1_sets_no_sent_stall_and_no_fault() {
    let mut m = at(1);
    Txcsrl(0b10_0100).store(&mut m);
    Rxcsrl(0b100_0101).store(&mut m);
    assert_eq!(Txcsrl::load(&mut m).0, 0);
    assert_eq!(Rxcsrl::load(&mut m).0, 0);
}

#[test]
fn a_store_reaches_the_selected_endpoint_only() {
    let mut m = at(3);
    Txcsrl(1).store(&mut m);
    Txmaxp(7).store(&mut m);
    Txcsrh(255).store(&mut m);
    for endpoint in [0, 1, 2, 4, 5] {
        assert_eq!(m.tx[endpoint], Default::default());
    }
    assert_eq!((m.tx[3].ready, m.tx[3].max_packet, m.tx[3].iso), (true, 7, true));
    assert_eq!(m.rx[3], Default::default());
    assert_eq!(Txcsrh::load(&mut m).0, 64); // unnamed bits read 0
}

#[test]
fn enable_registers_hold_all_that_was_written() {
    let mut m = at(0);
    Intrtxe(0xffff).store(&mut m);
    Intrrxe(0xfe).store(&mut m);
    assert_eq!((Intrtxe::load(&mut m).0, Intrrxe::load(&mut m).0), (0xffff, 0xfe));
}

#[test]
fn interrupt_registers_clear_when_read() {
    let mut m = at(0);
    m.bus(BusEvent::Suspend);
    m.bus(BusEvent::Resume);
    m.bus(BusEvent::Reset);
    m.arrival(0, &[1]);
    m.arrival(4, &[1]);
    assert_eq!(Intrusb::load(&mut m).0, 7);
    assert_eq!(Intrtx::load(&mut m).0, 1);
    assert_eq!(Intrrx::load(&mut m).0, 16);
    assert_eq!(Intrusb::load(&mut m).0, 0);
    assert_eq!(Intrtx::load(&mut m).0, 0);
    assert_eq!(Intrrx::load(&mut m).0, 0);
}

#[test]
fn arrival_drops_send_stall_at_endpoint_0_only() {
    let mut m = at(1);
    m.control.send_stall = true;
    m.rx[1].send_stall = true;
    m.arrival(0, &[]);
    m.arrival(1, &[]);
    assert!(!m.control.send_stall && m.rx[1].send_stall);
}

#[test]
fn arrival_changes_the_first_bytes_of_its_area_only() {
    let mut m = at(0);
    m.fifo = [9; FIFO_BYTES];
    m.arrival(2, &[1, 2]);
    let start = area_start(2, Direction::Out);
    assert_eq!(m.fifo[start - 1..start + 3], [9, 1, 2, 9]);
    assert_eq!(m.fifo.iter().filter(|&&byte| byte != 9).count(), 2);
    assert_eq!(
        Rxcount::load(&mut {
            let mut n = m.clone();
            n.index = 2;
            n
        })
        .count(),
        2
    );
}

#[test]
fn collection_gives_the_packet_and_leaves_the_bytes() {
    let mut m = at(2);
    for byte in [5, 6] {
        m.put_byte(2, byte);
    }
    Txcsrl(1).store(&mut m);
    let before = m.fifo;
    assert_eq!(m.collect(2), [5, 6]);
    assert_eq!(m.fifo, before);
    assert_eq!((m.tx[2].ready, m.tx[2].length, m.intrtx), (false, 0, 4));
}

#[test]
fn faults_and_setup_end() {
    let mut m = at(1);
    m.underrun(1);
    m.overrun(1);
    assert_eq!((Txcsrl::load(&mut m).0, Rxcsrl::load(&mut m).0), (4, 4));
    assert_eq!((m.intrtx, m.intrrx, m.intrusb), (0, 0, 0));
    m.setup_end();
    assert_eq!((Csr0l::load(&mut m).0, m.intrtx), (16, 1));
}
