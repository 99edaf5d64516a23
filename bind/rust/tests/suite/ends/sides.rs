//! An end with its lanes, and what of it is on its way.

use super::new_end;
use crate::seeds::Numbers;
use ilpstream::{End, EndConfig, Error, Flight, Read, Role};

/// One stream at one end: what is to be written and offered, and what was read.
pub struct Lane {
    stream: u8,
    /// Makes the bytes of the two directions of a stream, and those of two streams, different.
    own_mark: u8,
    peer_mark: u8,
    /// How many bytes are to be written, and how many were.
    pub total: u64,
    written: u64,
    /// How much is to be offered, in one offer or two, and how much was.
    money: u64,
    offered: u64,
    /// How many bytes were read.
    read: u64,
    closed: bool,
    /// Whether the end was reported, or that the peer aborted the stream.
    ended: bool,
    /// Whether either end may abort the stream.
    may_abort: bool,
}

/// The byte at an offset.
fn byte_at(mark: u8, offset: u64) -> u8 {
    (offset % 251) as u8 ^ mark
}

impl Lane {
    /// A lane of this number of bytes and units.
    pub fn new(stream: u8, role: Role, total: u64, money: u64) -> Lane {
        let (client, server) = (stream ^ 64, stream ^ 128);
        let (own_mark, peer_mark) = match role {
            Role::Client => (client, server),
            Role::Server => (server, client),
        };
        Lane {
            stream,
            own_mark,
            peer_mark,
            total,
            written: 0,
            money,
            offered: 0,
            read: 0,
            closed: false,
            ended: false,
            may_abort: false,
        }
    }

    /// The same of a stream that each end may abort.
    pub fn that_may_abort(self) -> Lane {
        Lane {
            may_abort: true,
            ..self
        }
    }

    /// Aborts the stream, if that may be and it is open.
    pub fn abort(&mut self, end: &mut End) {
        if self.may_abort && !self.closed && end.has_stream(self.stream).unwrap() {
            end.abort(self.stream, 9).unwrap();
            self.closed = true;
        }
    }

    /// Whether all that was written at the peer was read, and all of this end's is settled; less if it may be aborted.
    pub fn is_done(&self, end: &mut End, peer: &Lane) -> bool {
        let is_whole = self.read == peer.total || self.may_abort && self.read <= peer.total;
        self.closed && self.ended && is_whole && end.settled(self.stream).unwrap()
    }

    /// How much is offered in all.
    pub fn money(&self) -> u64 {
        self.money
    }

    /// Writes and offers so much of what is left, if the stream is open, and closes the stream once nothing is.
    pub fn go_on(&mut self, end: &mut End, most: u64) {
        if self.closed || !end.has_stream(self.stream).unwrap() {
            return;
        }
        if self.written < self.total {
            let until = self.total.min(self.written.saturating_add(most));
            let piece: Vec<u8> = (self.written..until)
                .map(|at| byte_at(self.own_mark, at))
                .collect();
            end.write(self.stream, &piece).unwrap();
            self.written = until;
        } else if self.offered < self.money {
            let amount = most.min(self.money - self.offered);
            end.offer(self.stream, amount).unwrap();
            self.offered += amount;
        } else {
            end.close(self.stream).unwrap();
            self.closed = true;
        }
    }

    /// Writes as much as there is room for, and closes the stream once all is written.
    pub fn fill(&mut self, end: &mut End) {
        let room = end.room(self.stream).unwrap_or(0);
        self.go_on(end, room as u64);
    }

    /// Whether all that was written at the peer was read.
    pub fn has_all(&self, peer: &Lane) -> bool {
        self.read == peer.total
    }

    /// Reads at most this number of bytes, one at least, and compares them.
    pub fn read_on(&mut self, end: &mut End, most: usize) {
        match end.read(self.stream, most.max(1)) {
            Ok(Read::Bytes(bytes)) => {
                assert!(!self.ended);
                for byte in bytes {
                    assert_eq!(byte, byte_at(self.peer_mark, self.read));
                    self.read += 1;
                }
            }
            Ok(Read::End) => self.ended = true,
            Ok(Read::Nothing) => {}
            Ok(Read::Aborted(code)) => {
                assert!(self.may_abort && code == 9, "aborted by {code}");
                self.ended = true;
            }
            Err(error) => assert_eq!(error, Error::NoStream),
        }
    }
}

/// A Prepare on its way, or its answer.
struct Shipment {
    flight: Flight,
    prepare: Vec<u8>,
    /// None if the Prepare did not arrive yet.
    answer: Option<Vec<u8>>,
}

/// An end with its user.
pub struct Side {
    pub end: End,
    pub lanes: Vec<Lane>,
    /// What has no answer yet.
    way: Vec<Shipment>,
    /// Prepares that were given up and may arrive later.
    late: Vec<Vec<u8>>,
    pub role: Role,
    /// How many Prepares were sent.
    sent: u32,
    /// The amounts of the Prepares that this end fulfilled.
    fulfilled: u64,
}

impl Side {
    pub fn new(role: Role, config: EndConfig) -> Side {
        Side {
            end: new_end(role, config).unwrap(),
            lanes: Vec::new(),
            way: Vec::new(),
            late: Vec::new(),
            role,
            sent: 0,
            fulfilled: 0,
        }
    }

    /// The next Prepare is sent: whether there was one.
    pub fn send(&mut self) -> bool {
        let mut iv = [self.role as u8; 12];
        iv[8..].copy_from_slice(&self.sent.to_be_bytes());
        self.sent += 1;
        let next = self.end.send(&iv, 0).unwrap();
        let is_one = next.is_some();
        self.way.extend(next.map(|next| Shipment {
            flight: next.flight,
            prepare: next.bytes,
            answer: None,
        }));
        is_one
    }

    /// One that is on its way.
    fn pick(&mut self, numbers: &mut Numbers) -> Option<Shipment> {
        let at = numbers.place(self.way.len());
        (at < self.way.len()).then(|| self.way.swap_remove(at))
    }

    /// The answer to a Prepare that arrives here.
    fn receive(&mut self, prepare: &[u8]) -> Vec<u8> {
        let received = self.end.receive(prepare, 0).unwrap();
        match received.reason {
            0 => self.fulfilled += received.amount,
            reason => assert_eq!(reason, 60, "a Prepare broke another rule"),
        }
        received.bytes
    }

    /// One of the Prepares arrives at its peer, for the first time or again. Which answer arrives first is free.
    pub fn deliver(&mut self, peer: &mut Side, numbers: &mut Numbers) {
        if let Some(mut shipment) = self.pick(numbers) {
            let answer = peer.receive(&shipment.prepare);
            if shipment.answer.is_none() || numbers.below(2) == 0 {
                shipment.answer = Some(answer);
            }
            self.way.push(shipment);
        }
    }

    /// One of the answers arrives.
    pub fn take_answer(&mut self, numbers: &mut Numbers) {
        match self.pick(numbers) {
            Some(Shipment {
                flight,
                answer: Some(mut answer),
                ..
            }) => {
                self.end.answer(flight, &mut answer).unwrap();
            }
            other => self.way.extend(other),
        }
    }

    /// One of the Prepares or its answer is lost, and the Prepare may arrive later.
    pub fn lose(&mut self, numbers: &mut Numbers) {
        if let Some(shipment) = self.pick(numbers) {
            self.end.fault(shipment.flight).unwrap();
            self.late.push(shipment.prepare);
        }
    }

    /// One of the Prepares that were given up arrives; nobody gets its answer.
    pub fn deliver_late(&mut self, peer: &mut Side) -> bool {
        let late = self.late.pop();
        if let Some(prepare) = &late {
            peer.receive(prepare);
        }
        late.is_some()
    }

    /// The last of those on their way arrives and its answer arrives: whether there was one.
    pub fn pass(&mut self, peer: &mut Side) -> bool {
        let Some(shipment) = self.way.pop() else {
            return false;
        };
        let mut answer = shipment
            .answer
            .unwrap_or_else(|| peer.receive(&shipment.prepare));
        self.end.answer(shipment.flight, &mut answer).unwrap();
        true
    }

    /// Whether it has paid no more than its peer was credited.
    pub fn is_covered(&mut self, peer: &mut Side) -> bool {
        self.end.totals().unwrap().paid <= peer.end.totals().unwrap().credited
    }

    /// That all bytes and all money arrived at the peer, and all ended here.
    pub fn check_done(&mut self, peer: &mut Side) {
        for (lane, other) in self.lanes.iter().zip(&peer.lanes) {
            assert!(lane.is_done(&mut self.end, other));
        }
        let offers: u64 = self.lanes.iter().map(Lane::money).sum();
        assert_eq!(self.end.totals().unwrap().paid, offers);
        assert_eq!(peer.end.totals().unwrap().credited, peer.fulfilled);
        assert!(!self.end.is_failed().unwrap() && self.is_covered(peer));
    }
}
