//! Payloads of every kind: lawful ones, and ones that are damaged in each way that the hub refuses.

use crate::random::Random;

const DESCRIPTOR: usize = 16;
pub const MAX_PAYLOAD: usize = 1472;
/// A call of a script has no more data than this.
const MAX_DATA: usize = 65_535;

const STATE: u8 = 0x01;
const CONTROL: u8 = 0x21;
const EDIT_VALUE: u8 = 0x42;
const REAL_VALUE: u8 = 0x43;
const EVENT: u8 = 0x51;
const TEMPERATURE: u8 = 0x71;
const KINDS: [u8; 6] = [STATE, CONTROL, EDIT_VALUE, REAL_VALUE, EVENT, TEMPERATURE];

/// A payload from a switch, without messages: an event if the number is 0, else an answer.
pub fn without_messages(random: &mut Random, switch: u16, number: u16) -> Vec<u8> {
    let words = [0x8601, 0, 0x0200 | u16::from(random.byte()), number, 0x1234, random.word(), switch, random.word()];
    let mut payload: Vec<u8> = words.into_iter().flat_map(u16::to_le_bytes).collect();
    fill_in_length(&mut payload);
    payload
}

/// A lawful payload with some messages of a switch that lists these actors, and with as many as it can have now and
/// then.
pub fn lawful(random: &mut Random, switch: u16, number: u16, listed: &[u16]) -> Vec<u8> {
    let mut payload = without_messages(random, switch, number);
    let length = match random.below(30) {
        0 => MAX_PAYLOAD,
        _ => DESCRIPTOR + random.below(60),
    };
    while payload.len() < length {
        let message = lawful_message(random, listed);
        if payload.len() + message.len() > MAX_PAYLOAD {
            break;
        }
        payload.extend(message);
    }
    fill_in_length(&mut payload);
    payload
}

/// A payload with one message that is, most often, unlawful, among lawful ones.
pub fn with_odd_message(random: &mut Random, switch: u16, number: u16, listed: &[u16]) -> Vec<u8> {
    let mut payload = without_messages(random, switch, number);
    let count = random.between(1, 6);
    let odd = random.below(count);
    for index in 0..count {
        // Another odd one behind the first shows which of two faults is told.
        let message = if index == odd || (index > odd && random.percent(40)) {
            odd_message(random, listed)
        } else {
            lawful_message(random, listed)
        };
        payload.extend(message);
    }
    fill_in_length(&mut payload);
    payload
}

/// Damages a payload, most often so that it is refused.
pub fn damage(random: &mut Random, payload: &mut Vec<u8>) {
    match random.below(16) {
        0 => put_word(payload, 0, random.pick(&[0x8600, 0x0186, 0x7501, 0])),
        1 => put_word(payload, 2, random.word()),
        2 => put_word(payload, 4, random.pick(&[0x0102, 0x0300, 0x0002, 0x8201])),
        3 => put_word(payload, 6, random.word()),
        4 => put_word(payload, 8, random.pick(&[0x1235, 0x3412, 0x1334, 0])),
        5 => put_word(payload, 12, random.word()),
        6 => {
            put_word(payload, 10, random.word());
            put_word(payload, 14, random.word());
        }
        7 | 8 => {
            let at = random.below(payload.len().max(1));
            damage_byte(random, payload, at);
        }
        9 => payload.truncate(random.below(payload.len().max(1))),
        10 => {
            let length = random.between(0, payload.len());
            resize(random, payload, length);
        }
        11 => {
            let length = (payload.len() + random.between(1, 20)).min(MAX_DATA);
            resize(random, payload, length);
        }
        12 => extend_lawfully(random, payload, MAX_PAYLOAD),
        13 => extend_lawfully(random, payload, MAX_PAYLOAD + 1),
        14 => {
            let length = random.pick(&[0, 1, 15, 16, 1472, 1473, 5000, MAX_DATA]);
            *payload = random.bytes(length);
        }
        _ => {
            let length = random.pick(&[0, 15, 16, 17, 19, 20, 1471, 1472, 1473, 2000]);
            resize(random, payload, length);
        }
    }
}

/// Makes one byte another one.
pub fn damage_byte(random: &mut Random, payload: &mut [u8], at: usize) {
    if let Some(byte) = payload.get_mut(at) {
        *byte ^= random.between(1, 255) as u8;
    }
}

/// Cuts a payload off, or adds random bytes, and lets its FrameLength agree.
pub fn resize(random: &mut Random, payload: &mut Vec<u8>, length: usize) {
    payload.truncate(length);
    let missing = length - payload.len();
    payload.extend(random.bytes(missing));
    fill_in_length(payload);
}

/// Adds messages of no known kind up to this length, and lets FrameLength agree.
pub fn extend_lawfully(random: &mut Random, payload: &mut Vec<u8>, length: usize) {
    while payload.len() < length {
        let left = length - payload.len();
        // Never so near to the end that no message of four bytes would have room.
        let next = match left {
            0..8 => left,
            _ => random.between(4, (left - 4).min(255)),
        };
        let mut message = vec![next as u8, 0xEE];
        message.resize(next, random.byte());
        payload.extend(message);
    }
    fill_in_length(payload);
}

fn put_word(payload: &mut [u8], at: usize, word: u16) {
    if let Some(place) = payload.get_mut(at..at + 2) {
        place.copy_from_slice(&word.to_le_bytes());
    }
}

/// Lets FrameLength agree with the payload.
pub fn fill_in_length(payload: &mut [u8]) {
    put_word(payload, 2, payload.len() as u16);
}

fn message(id: u8, actor: u16, data: &[u8]) -> Vec<u8> {
    let mut message = vec![(4 + data.len()) as u8, id];
    message.extend(actor.to_le_bytes());
    message.extend(data);
    message
}

fn lawful_message(random: &mut Random, listed: &[u16]) -> Vec<u8> {
    let actor = if listed.is_empty() { 1 } else { random.pick(listed) };
    match random.below(8) {
        0 => message(STATE, 0, &flags(random).to_le_bytes()),
        1 => message(CONTROL, 0, &random.bytes(4)),
        2 | 3 => message(EDIT_VALUE, actor, &value(random).to_le_bytes()),
        4 => {
            // A RealValue may be of any actor.
            let actor = random.pick_or_any(&[actor]).max(1);
            message(REAL_VALUE, actor, &value(random).to_le_bytes())
        }
        5 => message(EVENT, actor, &random.bytes(2)),
        6 => {
            let [low, high] = value(random).to_le_bytes();
            let valid = random.pick(&[1, 1, 0, 2, 0x81, 0xFF]);
            let reserved = random.byte();
            message(TEMPERATURE, 0, &[low, high, valid, reserved])
        }
        _ => unknown_message(random),
    }
}

fn unknown_message(random: &mut Random) -> Vec<u8> {
    let id = loop {
        let id = random.byte();
        if !KINDS.contains(&id) {
            break id;
        }
    };
    let length = random.pick(&[0, 0, 0, 1, 1, 2, 2, 4, 4, 9, 251]);
    let data = random.bytes(length);
    message(id, random.word(), &data)
}

/// A message that is unlawful in most cases, and lawful though odd in the others.
fn odd_message(random: &mut Random, listed: &[u16]) -> Vec<u8> {
    let mut odd = lawful_message(random, listed);
    match random.below(9) {
        // Of another actor: none where there should be one, one where there should be none, or a stranger.
        0 => put_word(&mut odd, 2, 0),
        1 => put_word(&mut odd, 2, random.word()),
        2 => odd = message(EDIT_VALUE, random.word(), &value(random).to_le_bytes()),
        3 => odd = message(EVENT, random.word(), &random.bytes(2)),
        // Of another length, though its bytes are there.
        4 => {
            let length = random.pick(&[0, 1, 2, 3, 4, 5, 8]);
            odd = message(random.pick(&KINDS), random.pick(&[0, 1]), &random.bytes(length));
        }
        // Of another kind, with the same bytes.
        5 => odd[1] = random.pick(&KINDS),
        // With a MessageLength that lies.
        6 => odd[0] = random.below(4) as u8,
        7 => odd[0] = random.pick_or_any(&[4, 5, 6, 7, 8, 9, 255]) as u8,
        // Cut off.
        _ => odd.truncate(random.between(1, 7)),
    }
    odd
}

fn flags(random: &mut Random) -> u32 {
    const INIT_REQUEST: u32 = 1 << 6;
    let bits = random.next() as u32;
    if random.percent(25) { bits | INIT_REQUEST } else { bits & !INIT_REQUEST }
}

/// Any value, the forbidden ones and their neighbours rather often.
pub fn value(random: &mut Random) -> i16 {
    match random.below(10) {
        0 => random.pick(&[-32_768, 32_767]),
        1 => random.pick(&[-32_767, 32_766]),
        2 => random.pick(&[-1, 0, 1]),
        _ => random.word().cast_signed(),
    }
}
