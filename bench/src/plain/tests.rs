//! The worked examples of the pages, with their bytes as the pages have them.

use super::hub::Taken;
use super::*;

const SITE: Site = Site { version: 0x0201, project: 0x1234, firmware: 0, design: 5 };

fn bytes(hexadecimal: &str) -> Vec<u8> {
    let digits: Vec<u32> = hexadecimal.chars().filter_map(|digit| digit.to_digit(16)).collect();
    digits.chunks(2).map(|pair| (pair[0] << 4 | pair[1]) as u8).collect()
}

/// Switch 7 lists actors 1 and 2, switch 8 lists actor 2.
fn two_switches() -> Hub<Table> {
    let mut hub = Hub::open(Table::open(&[1, 2]).unwrap(), SITE).unwrap();
    hub.enrol(7, &[1, 2]).unwrap();
    hub.enrol(8, &[2]).unwrap();
    hub
}

fn composed(hub: &mut Hub<impl Store>, switch: u16) -> Vec<u8> {
    let mut buffer = [0; MAX_PAYLOAD];
    let Composed { length, slip, .. } = hub.compose(switch, &mut buffer).unwrap();
    hub.sent(slip).unwrap();
    buffer[..length].to_vec()
}

#[test]
fn a_turn_at_one_switch_is_told_to_both() {
    let mut hub = two_switches();
    let turn = bytes("0186160001020000341203020800050006420200FBFF");
    assert_eq!(hub.take(&turn), Ok(Taken { sort: Sort::Event, understood: 1 }));
    assert_eq!(
        composed(&mut hub, 7),
        bytes("0186300001020100341200000700050006430100000006420100000006430200000006420200FBFF0821000030010000")
    );
    assert_eq!(
        composed(&mut hub, 8),
        bytes("0186240001020100341200000800050006430200000006420200FBFF0821000030010000")
    );
}

#[test]
fn the_awaited_answer_settles_and_comes_once() {
    let mut hub = two_switches();
    let packet = composed(&mut hub, 8);
    assert_eq!(hub.control_mark(8), Ok(Mark::UnderWay));
    assert_eq!(hub.take(&packet), Ok(Taken { sort: Sort::Answer, understood: 3 }));
    assert_eq!(hub.has_outstanding(8), Ok(false));
    assert_eq!(hub.take(&packet), Ok(Taken { sort: Sort::Stale, understood: 3 }));
}

#[test]
fn a_full_refresh_has_792_bytes() {
    let actors: Vec<u16> = (1..=64).collect();
    let mut hub = Hub::open(Table::open(&actors).unwrap(), SITE).unwrap();
    hub.enrol(1, &actors).unwrap();
    assert_eq!(hub.compose(1, &mut [0; 791]).unwrap_err(), Reason::BufferTooShort.into());
    assert_eq!(composed(&mut hub, 1).len(), 792);
}

#[test]
fn actor_6_of_an_image_stands_on_page_1() {
    let mut block = vec![0; 184];
    block[0..4].copy_from_slice(&[0x01, 0x75, 184, 0]);
    block[25] = 2;
    block[164] = 3;
    block[166] = 4;
    let image = Image::open(&block).unwrap();
    let values = image.read(6).unwrap();
    assert_eq!((values.actual, values.target), (3, 4));
    assert!(image.read(9).is_none());
}
