//! Writes a script call by call, and plays each call on a plain hub at once.

use super::Written;
use super::payloads;
use crate::outcome::{OUTCOME, Outcome};
use crate::plain::{Hub, Mark, Store};
use crate::play::Player;
use crate::random::Random;
use crate::script::{Call, MAX_BUFFER, Operation};

/// So many packets are remembered, to be answered.
const MEMORY: usize = 24;
const KEPT: u8 = 0;
const SENT: u8 = 1;
const WITHHELD: u8 = 2;

/// A switch that is enrolled, and the actors that it lists.
#[derive(Clone)]
struct Member {
    id: u16,
    actors: Vec<u16>,
}

/// A packet that the hub has composed.
#[derive(Clone)]
struct Packet {
    switch: u16,
    bytes: Vec<u8>,
}

pub struct Author<'r, S> {
    random: &'r mut Random,
    player: Player<S>,
    /// The actors that the store knows.
    known: Vec<u16>,
    members: Vec<Member>,
    packets: Vec<Packet>,
    written: Written,
    buffer: Vec<u8>,
}

impl<'r, S: Store> Author<'r, S> {
    pub fn new(random: &'r mut Random, hub: Hub<S>, known: &[u16]) -> Self {
        Self {
            random,
            player: Player::new(hub),
            known: known.to_vec(),
            members: Vec::new(),
            packets: Vec::new(),
            written: Written { calls: Vec::new(), room: 0 },
            buffer: vec![0; MAX_BUFFER],
        }
    }

    /// What has been written.
    pub fn written(mut self) -> Written {
        self.player.finish();
        self.written
    }

    /// Enrols switches, makes calls of all kinds, and at the end asks for everything.
    pub fn write(&mut self) {
        let enrolments = self.random.pick(&[0, 1, 1, 1, 2, 2, 3, 3, 5, 9, 33]);
        for _ in 0..enrolments {
            self.enrol();
        }
        let steps = self.random.pick(&[10, 60, 200, 400, 800]);
        for _ in 0..steps {
            self.step();
        }
        self.ask_everything();
    }

    /// Lets the number of packets of one switch run past 65,535.
    pub fn write_past_the_last_number(&mut self) {
        const PACKETS: usize = 66_000;
        const WHOLE: usize = 36;
        let (switch, actors) = (7, self.known.clone());
        self.enrol_as(switch, &actors);
        let mut packets = 0;
        while packets < PACKETS {
            if self.compose_for(switch, WHOLE, SENT).is_done() {
                packets += 1;
            } else {
                // Nothing is outstanding any more: a change makes something.
                self.value_setting(Operation::SetTarget);
            }
            // Around the last number, and now and then elsewhere, the switch answers and turns.
            if (65_500..65_600).contains(&packets) || self.random.below(500) == 0 {
                self.answer();
                self.event();
                self.question();
            }
        }
        self.ask_everything();
    }

    /// Writes a call, and makes it.
    fn call(&mut self, call: Call) -> Outcome {
        let length = call.buffer_length();
        call.write(&mut self.written.calls);
        self.written.room += OUTCOME + length;
        self.player.make(&call, &mut self.buffer[..length])
    }

    fn step(&mut self) {
        match self.random.below(100) {
            0..4 => self.value_setting(Operation::SetActual),
            4..12 => self.value_setting(Operation::SetTarget),
            12..16 => self.control_setting(),
            16..40 => self.event(),
            40..55 => self.answer(),
            55..75 => self.compose(),
            75..82 => self.hand_in(),
            82..84 => self.hand_elsewhere(),
            84..96 => self.question(),
            96..98 => self.enrol(),
            98 => self.nothing(),
            _ if self.random.percent(25) => self.sweep(),
            _ => self.question(),
        }
    }

    // Switches, actors, lists.

    /// A switch, most often an enrolled one.
    fn switch(&mut self) -> u16 {
        if self.members.is_empty() || self.random.percent(3) {
            return self.random.pick_or_any(&[0, 1, 7, 0xFFFF]);
        }
        self.random.pick_ref(&self.members).id
    }

    /// The actors that a switch lists: none, if it is not enrolled.
    fn listed(&self, switch: u16) -> &[u16] {
        self.members.iter().find(|member| member.id == switch).map_or(&[], |member| &member.actors)
    }

    /// An actor, most often one that the switch lists.
    fn actor(&mut self, switch: u16) -> u16 {
        let listed = self.listed(switch).to_vec();
        match self.random.below(20) {
            0 => self.random.pick_or_any(&[0]),
            1..5 => self.random.pick(&self.known),
            _ if listed.is_empty() => self.random.pick(&self.known),
            _ => self.random.pick(&listed),
        }
    }

    fn enrol(&mut self) {
        let switch = match self.random.below(20) {
            0 => 0,
            1 => self.switch(),
            2..10 => self.random.between(1, 60) as u16,
            _ => self.random.word(),
        };
        let actors = self.list();
        self.enrol_as(switch, &actors);
    }

    fn enrol_as(&mut self, switch: u16, actors: &[u16]) {
        let mut data: Vec<u8> = actors.iter().copied().flat_map(u16::to_le_bytes).collect();
        if self.random.percent(5) {
            data.push(self.random.byte());
        }
        let outcome = self.call(Call::new(Operation::Enrol).a(switch).data(&data));
        if outcome.is_done() {
            self.members.push(Member { id: switch, actors: actors.to_vec() });
        }
    }

    /// A list for an enrolment, lawful most often.
    fn list(&mut self) -> Vec<u16> {
        let count = match self.random.below(5) {
            0 => 1,
            1 | 2 => self.random.between(1, 8),
            3 => self.random.between(1, 65),
            _ => self.random.between(60, 65),
        };
        let mut list = self.known.clone();
        self.random.shuffle(&mut list);
        list.truncate(count);
        if self.random.percent(12) {
            self.spoil_list(&mut list);
        }
        list
    }

    fn spoil_list(&mut self, list: &mut Vec<u16>) {
        let stranger = self.random.word();
        match self.random.below(5) {
            0 => list.clear(),
            1 => list.resize(self.random.pick(&[65, 66, 300]), stranger),
            _ => {
                // One or two entries that are zero, unknown or repeated.
                for _ in 0..self.random.between(1, 2) {
                    let index = self.random.below(list.len());
                    list[index] = self.random.pick(&[0, stranger, list[0]]);
                }
            }
        }
    }

    // Settings.

    fn value_setting(&mut self, operation: Operation) {
        let switch = self.switch();
        let actor = self.actor(switch);
        let value = payloads::value(self.random);
        self.call(Call::new(operation).a(actor).b(value.cast_unsigned()));
    }

    fn control_setting(&mut self) {
        const MASK: u32 = 0x1F00_FFBF;
        const NEEDED: u32 = 1 << 8;
        let bits = self.random.next() as u32;
        let word = match self.random.below(8) {
            0 => bits,
            1 => bits & MASK & !NEEDED,
            2 => (bits & MASK | NEEDED) ^ (1 << self.random.below(32)),
            3 => self.random.pick(&[0x130, 0x30, 0x100, 0, MASK, MASK | 0x40, u32::MAX]),
            _ => bits & MASK | NEEDED,
        };
        let switch = self.switch();
        self.call(Call::new(Operation::SetControl).a(switch).b(word as u16).c((word >> 16) as u16));
    }

    // Payloads.

    fn take(&mut self, payload: &[u8]) {
        self.call(Call::new(Operation::Take).data(payload));
    }

    /// An event: lawful, or with an odd message, or damaged.
    fn event(&mut self) {
        let payload = self.new_payload(0);
        self.take_perhaps_damaged(payload, 25);
    }

    /// A payload under this number, with messages of its own.
    fn new_payload(&mut self, number: u16) -> Vec<u8> {
        let switch = self.switch();
        let listed = self.listed(switch).to_vec();
        if self.random.percent(70) {
            payloads::lawful(self.random, switch, number, &listed)
        } else {
            payloads::with_odd_message(self.random, switch, number, &listed)
        }
    }

    fn take_perhaps_damaged(&mut self, mut payload: Vec<u8>, percent: usize) {
        if self.random.percent(percent) {
            payloads::damage(self.random, &mut payload);
            // Of two damages the first check must tell.
            if self.random.percent(25) {
                payloads::damage(self.random, &mut payload);
            }
        }
        self.take(&payload);
    }

    /// An answer to a packet that the hub has composed: the latest one, or one that is late or was answered before.
    fn answer(&mut self) {
        let Some(latest) = self.packets.last() else {
            return self.stray_answer();
        };
        let packet = match self.random.below(10) {
            0..4 => latest.clone(),
            4..9 => self.random.pick_ref(&self.packets).clone(),
            _ => return self.stray_answer(),
        };
        if self.random.percent(8) {
            // Under the right number, but with messages that no hub has sent.
            let number = u16::from_le_bytes([packet.bytes[6], packet.bytes[7]]);
            let listed = self.listed(packet.switch).to_vec();
            let payload = payloads::with_odd_message(self.random, packet.switch, number, &listed);
            return self.take(&payload);
        }
        self.take_perhaps_damaged(packet.bytes, 15);
    }

    /// An answer to a packet that need not have been there.
    fn stray_answer(&mut self) {
        let number = self.random.pick_or_any(&[1, 2, 3, 0xFFFF]);
        let payload = self.new_payload(number);
        self.take(&payload);
    }

    /// One payload, damaged in each byte; cut off at each length, as it is and with a FrameLength that agrees; and
    /// extended to the greatest length and beyond.
    fn sweep(&mut self) {
        let payload = match self.packets.last() {
            Some(packet) if packet.bytes.len() < 200 && self.random.percent(50) => packet.bytes.clone(),
            _ => {
                let switch = self.switch();
                let listed = self.listed(switch).to_vec();
                payloads::lawful(self.random, switch, 0, &listed)
            }
        };
        for at in 0..payload.len() {
            let mut damaged = payload.clone();
            payloads::damage_byte(self.random, &mut damaged, at);
            self.take(&damaged);
        }
        for length in 0..payload.len() {
            self.take(&payload[..length]);
            let mut shorter = payload.clone();
            payloads::resize(self.random, &mut shorter, length);
            self.take(&shorter);
        }
        for length in [payloads::MAX_PAYLOAD, payloads::MAX_PAYLOAD + 1] {
            let mut longer = payload.clone();
            payloads::extend_lawfully(self.random, &mut longer, length);
            self.take(&longer);
        }
    }

    // Packets and slips.

    fn compose(&mut self) {
        let switch = self.switch();
        let needed = self.packet_length(switch);
        let room = match self.random.below(20) {
            0..8 => needed,
            8..11 => needed - 1,
            11 => self.random.pick(&[0, 1, 15, 16, 23, 24, 27, 28]),
            12 => self.random.below(900),
            13 => self.random.pick(&[1473, 2000, 65_535]),
            14..16 => MAX_BUFFER,
            _ => needed + self.random.below(40),
        };
        let fate = match self.random.below(20) {
            0..10 => SENT,
            10..14 => WITHHELD,
            14..19 => KEPT,
            _ => self.random.byte(),
        };
        self.compose_for(switch, room, fate);
    }

    fn compose_for(&mut self, switch: u16, room: usize, fate: u8) -> Outcome {
        let outcome = self.call(Call::new(Operation::Compose).a(switch).b(room as u16).fate(fate));
        if outcome.is_done() {
            let [length, ..] = outcome.told();
            let bytes = self.buffer[..usize::from(length)].to_vec();
            self.remember(Packet { switch, bytes });
        }
        outcome
    }

    /// How long the next packet for a switch would be.
    fn packet_length(&self, switch: u16) -> usize {
        let hub = self.player.hub();
        let is_outstanding = |mark: Result<Mark, _>| mark.is_ok_and(|mark| mark != Mark::Settled);
        let actors = self.listed(switch).iter().filter(|&&actor| is_outstanding(hub.actor_mark(switch, actor))).count();
        let control = usize::from(is_outstanding(hub.control_mark(switch)));
        16 + 12 * actors + 8 * control
    }

    /// The latest packet stands last. Once the memory is full, any older one is forgotten for it.
    fn remember(&mut self, packet: Packet) {
        if self.packets.len() == MEMORY {
            self.packets.swap_remove(self.random.below(MEMORY));
        }
        self.packets.push(packet);
    }

    fn hand_in(&mut self) {
        let fate = self.random.pick(&[SENT, SENT, WITHHELD, KEPT, 3, 255]);
        self.call(Call::new(Operation::HandIn).fate(fate));
    }

    fn hand_elsewhere(&mut self) {
        let fate = self.random.pick(&[SENT, WITHHELD, KEPT]);
        self.call(Call::new(Operation::HandElsewhere).fate(fate));
    }

    // Questions.

    fn question(&mut self) {
        let switch = self.switch();
        let actor = self.actor(switch);
        let operation = self.random.pick(&[
            Operation::ActorMark,
            Operation::ActorMark,
            Operation::ControlMark,
            Operation::Flags,
            Operation::LatestKey,
            Operation::Reading,
            Operation::HasOutstanding,
        ]);
        self.call(Call::new(operation).a(switch).b(actor));
    }

    /// A call that is none, whatever its words say.
    fn nothing(&mut self) {
        let operation = self.random.pick(&[0, 15, 16, 255]);
        let count = self.random.below(20);
        let data = self.random.bytes(count);
        let (a, b, fate) = (self.switch(), self.random.word(), self.random.byte());
        self.call(Call { operation, fate, a, b, c: 0, data: &data });
    }

    /// All that the hub can be asked, the values included: each switch is told everything at the end.
    fn ask_everything(&mut self) {
        for Member { id, actors } in self.members.clone() {
            for operation in [
                Operation::ControlMark,
                Operation::Flags,
                Operation::LatestKey,
                Operation::Reading,
                Operation::HasOutstanding,
            ] {
                self.call(Call::new(operation).a(id));
            }
            for actor in actors {
                self.call(Call::new(Operation::ActorMark).a(id).b(actor));
            }
            self.call(Call::new(Operation::HandIn).fate(WITHHELD));
            let mut everything = payloads::without_messages(self.random, id, 0);
            everything.extend([8, 0x01, 0, 0, 0x40, 0, 0, 0]);
            everything[2] = 24;
            self.take(&everything);
            self.call(Call::new(Operation::Compose).a(id).b(800).fate(SENT));
        }
    }
}
