//! Two ends with none to eight hops between them, by a seed: Prepares, answers and Fulfills are lost on each link, both ways at
//! once, and hops crash and start again with their books. What each end reads, and each hop's balances, are compared with what
//! was written, and what was given and taken on each link. At the end everything passes.

use super::config;
use super::sides::Lane;
use crate::hostile::plain::ilp;
use crate::seeds::{Numbers, for_each};
use ilpstream::{
    Account, Booking, End, EndConfig, Error, Flight, Hop, Role, Route, Ticket, Verdict,
};
use std::collections::HashSet;
use std::sync::atomic::{AtomicU64, Ordering};

/// How many chains are run, and for how many steps before everything passes.
const SEEDS: u64 = 1_000;
const STEPS: u64 = 400;

/// How often everything passes at most.
const ROUNDS: u64 = 10_000;

/// An end with its user.
struct Party {
    end: End,
    lanes: Vec<Lane>,
    role: Role,
    /// How many Prepares it sent.
    sent: u32,
    /// What it paid by the Fulfills that it received, and what it was credited by those that it gave.
    paid: u64,
    credited: u64,
}

/// A Prepare on its way to the other end, or its answer on its way back.
struct Shipment {
    from: Role,
    flight: Flight,
    /// The tickets of the hops after it, with what arrived there and what was sent on.
    behind: Vec<(Ticket, u64, u64)>,
    bytes: Vec<u8>,
    is_answer: bool,
    /// What the node that it goes to is to be paid; of a Fulfill, what the node that gave it was.
    amount: u64,
}

impl Shipment {
    fn is_fulfill(&self) -> bool {
        self.is_answer && is_fulfill(&self.bytes)
    }
}

/// What was given and taken, by the two ways.
#[derive(Clone, Copy, Default)]
struct Sums {
    claims: [u64; 2],
    dues: [u64; 2],
}

/// Fulfills that the near node of a link never took, by the two ways of their Prepares.
#[derive(Clone, Copy, Default)]
struct Missed {
    /// Those that were lost on the link.
    lost: [u64; 2],
    /// Those for which the near node, a hop, had no ticket any more.
    late: [u64; 2],
    /// What the hop was to pay for the Prepares that were open there as it crashed.
    open_at_crashes: [u64; 2],
}

/// What a hop is made of.
struct Terms {
    name: String,
    account: Account,
    rates: [(u32, u32); 2],
}

struct Chain {
    parties: [Party; 2],
    terms: Vec<Terms>,
    hops: Vec<Hop>,
    sums: Vec<Sums>,
    /// By link, of which one begins at each node: from the client on.
    missed: Vec<Missed>,
    on_the_way: Vec<Shipment>,
    /// By hop, the tickets that were open as it crashed.
    forgotten: HashSet<(usize, Ticket)>,
    crashes: u64,
    /// Whether a stream may be aborted, and a hop crash.
    may_abort: bool,
    may_crash: bool,
}

/// A rate that is 1 in half of the cases.
fn rate(numbers: &mut Numbers) -> (u32, u32) {
    match numbers.below(6) {
        0 => (3, 2),
        1 => (2, 3),
        2 => (1, 2),
        _ => (1, 1),
    }
}

impl Terms {
    fn new(numbers: &mut Numbers, place: u64) -> Terms {
        let account = Account {
            limit: u64::MAX >> 1,
            max_packet: numbers.choice(&[10, 60, 100, 1_000_000]),
        };
        Terms {
            name: format!("test.h{place}"),
            account,
            rates: [rate(numbers), rate(numbers)],
        }
    }

    fn routes(&self) -> [Route<'_>; 2] {
        [("test.a", 0), ("test.b", 1)].map(|(prefix, account)| {
            let (num, den) = self.rates[account];
            Route {
                prefix,
                account,
                num,
                den,
            }
        })
    }

    fn hop(&self) -> Hop {
        Hop::new(&self.name, &[self.account; 2], &self.routes()).unwrap()
    }

    /// The hop with these books, at its start of this number.
    fn restored(&self, sums: &Sums, start: u64) -> Hop {
        let (accounts, routes) = ([self.account; 2], self.routes());
        let (claims, dues) = (&sums.claims, &sums.dues);
        Hop::restored(&self.name, &accounts, &routes, claims, dues, start << 44).unwrap()
    }
}

/// A party with up to four lanes, of which it opens its own.
fn new_party(numbers: &mut Numbers, role: Role, streams: u8, may_abort: bool) -> Party {
    let config = EndConfig {
        least_num: 1,
        least_den: 1_000_000,
        ..config(numbers.place(16) + 1, 1_000_000, 50 + numbers.below(200))
    };
    let names = match role {
        Role::Client => ["test.a", "test.b"],
        Role::Server => ["test.b", "test.a"],
    };
    let mut end = End::new(role, &[5; 32], names[0], names[1], config).unwrap();
    let mut lanes = Vec::new();
    for stream in 1..=streams {
        if stream % 2 != role as u8 {
            assert_eq!(end.open_stream(), Ok(stream));
        }
        let total = numbers.below(20_000) >> numbers.below(10);
        let lane = Lane::new(stream, role, total, numbers.below(400));
        lanes.push(if may_abort {
            lane.that_may_abort()
        } else {
            lane
        });
        end.set_receive_max(stream, 1_000_000).unwrap();
    }
    Party {
        end,
        lanes,
        role,
        sent: 0,
        paid: 0,
        credited: 0,
    }
}

/// Which of the two parties, and of each hop's two accounts, a Prepare of this end comes from.
fn side(role: Role) -> usize {
    match role {
        Role::Client => 0,
        Role::Server => 1,
    }
}

impl Party {
    fn send(&mut self) -> Option<Shipment> {
        let mut iv = [self.role as u8; 12];
        iv[8..].copy_from_slice(&self.sent.to_be_bytes());
        self.sent += 1;
        let next = self.end.send(&iv, 0).unwrap()?;
        Some(Shipment {
            from: self.role,
            flight: next.flight,
            behind: Vec::new(),
            amount: ilp::prepare(&next.bytes).unwrap().amount,
            bytes: next.bytes,
            is_answer: false,
        })
    }

    /// Whether its totals are what it received and sent.
    fn is_kept(&mut self) -> bool {
        let totals = self.end.totals().unwrap();
        totals.paid == self.paid && totals.credited == self.credited
    }
}

fn is_fulfill(bytes: &[u8]) -> bool {
    bytes[0] == 13
}

impl Chain {
    fn new(numbers: &mut Numbers) -> Chain {
        let (streams, may_abort) = (numbers.below(4) as u8 + 1, numbers.below(4) == 0);
        let both = [Role::Client, Role::Server];
        let parties = both.map(|role| new_party(numbers, role, streams, may_abort));
        let terms: Vec<Terms> = (0..numbers.below(9))
            .map(|at| Terms::new(numbers, at))
            .collect();
        Chain {
            parties,
            hops: terms.iter().map(Terms::hop).collect(),
            sums: vec![Sums::default(); terms.len()],
            missed: vec![Missed::default(); terms.len() + 1],
            terms,
            on_the_way: Vec::new(),
            forgotten: HashSet::new(),
            crashes: 0,
            may_abort,
            may_crash: numbers.below(2) == 0,
        }
    }

    /// The hop that a Prepare of this end comes to as its number `count`, counted from 0.
    fn hop(&self, from: Role, count: usize) -> usize {
        match from {
            Role::Client => count,
            Role::Server => self.hops.len() - 1 - count,
        }
    }

    /// The link over which a Prepare of this end goes after `count` hops.
    fn link(&self, from: Role, count: usize) -> usize {
        match from {
            Role::Client => count,
            Role::Server => self.hops.len() - count,
        }
    }

    /// A hop crashes, and starts again with its books. Its open tickets are those of what is on the way.
    fn crash(&mut self, numbers: &mut Numbers, place: usize) {
        for it in &self.on_the_way {
            let count = self.hop(it.from, place);
            let Some((ticket, _, outgoing)) = it.behind.get(count) else {
                continue;
            };
            if self.forgotten.insert((place, *ticket)) {
                let link = self.link(it.from, count + 1);
                self.missed[link].open_at_crashes[side(it.from)] += outgoing;
            }
        }
        self.crashes += 1;
        if numbers.below(2) == 0 {
            self.hops[place].restart().unwrap();
        } else {
            self.hops[place] = self.terms[place].restored(&self.sums[place], self.crashes);
        }
        for account in 0..2 {
            assert_eq!(self.hops[place].balances(account).unwrap().held, 0);
        }
    }

    /// A Prepare arrives at the next node: to a hop, which sends it on or answers, or to the other end.
    fn arrive(&mut self, it: &mut Shipment) {
        let (count, from) = (it.behind.len(), side(it.from));
        if count == self.hops.len() {
            let party = &mut self.parties[1 - from];
            let received = party.end.receive(&it.bytes, 0).unwrap();
            if received.reason == 0 {
                party.credited += it.amount;
            }
            it.bytes = received.bytes;
            it.is_answer = true;
            return;
        }
        let place = self.hop(it.from, count);
        match self.hops[place].arrive(from, &it.bytes, 0).unwrap() {
            Verdict::Answer(bytes) => {
                it.bytes = bytes;
                it.is_answer = true;
            }
            Verdict::Forward {
                ticket,
                account,
                bytes,
            } => {
                assert_eq!(account, 1 - from);
                let onward = ilp::prepare(&bytes).unwrap().amount;
                it.behind.push((ticket, it.amount, onward));
                (it.bytes, it.amount) = (bytes, onward);
            }
        }
    }

    /// What a hop answers to the Prepare of a ticket, or none if it knows the ticket no more. It reports before what it books.
    fn close(
        &mut self,
        place: usize,
        ticket: Ticket,
        came: Option<&[u8]>,
        booking: Booking,
    ) -> Option<Vec<u8>> {
        let hop = &mut self.hops[place];
        let told = came.map(|bytes| hop.books(ticket, bytes, 0));
        let answer = match came {
            Some(bytes) => hop.settle(ticket, bytes, 0),
            None => hop.fault(ticket),
        };
        if self.forgotten.contains(&(place, ticket)) {
            assert_eq!(answer, Err(Error::Unknown));
            assert!(matches!(told, None | Some(Err(Error::Unknown))));
            return None;
        }
        let answer = answer.unwrap();
        let want = is_fulfill(&answer).then_some(booking);
        assert!(told.is_none_or(|told| told == Ok(want)));
        Some(answer)
    }

    /// An answer arrives at the node before, or nothing does: whether the shipment still is on its way. If a hop crashed that the
    /// answer arrives at, nothing arrives at the node before it.
    fn come_back(&mut self, it: &mut Shipment, is_lost: bool) -> bool {
        let from = side(it.from);
        let link = self.link(it.from, it.behind.len());
        if is_lost && it.is_fulfill() {
            self.missed[link].lost[from] += it.amount;
        }
        let Some((ticket, incoming, outgoing)) = it.behind.pop() else {
            let party = &mut self.parties[from];
            if is_lost {
                party.end.fault(it.flight).unwrap();
            } else if party.end.answer(it.flight, &mut it.bytes).unwrap() {
                party.paid += it.amount;
            }
            return false;
        };
        let place = self.hop(it.from, it.behind.len());
        let came = (!is_lost).then_some(it.bytes.as_slice());
        let booking = Booking {
            payer: from,
            claim: incoming,
            payee: 1 - from,
            due: outgoing,
        };
        let Some(answer) = self.close(place, ticket, came, booking) else {
            if !is_lost && it.is_fulfill() {
                self.missed[link].late[from] += it.amount;
            }
            it.is_answer = false;
            return self.come_back(it, true);
        };
        it.bytes = answer;
        if is_fulfill(&it.bytes) {
            self.sums[place].claims[from] += incoming;
            self.sums[place].dues[1 - from] += outgoing;
        }
        it.is_answer = true;
        it.amount = incoming;
        true
    }

    /// One of those on the way is forwarded over a link, or is lost there. A Prepare that is lost may have come to the next node:
    /// if that is an end, it answers it.
    fn go_on(&mut self, at: usize, is_lost: bool, has_come: bool) {
        let mut it = self.on_the_way.swap_remove(at);
        if !it.is_answer {
            if !is_lost || has_come && it.behind.len() == self.hops.len() {
                self.arrive(&mut it);
            }
            if !is_lost {
                self.on_the_way.push(it);
                return;
            }
        }
        if self.come_back(&mut it, is_lost) {
            self.on_the_way.push(it);
        }
    }

    /// Something happens.
    fn step(&mut self, numbers: &mut Numbers) {
        let party = &mut self.parties[numbers.place(2)];
        let at = numbers.place(party.lanes.len());
        match numbers.below(20) {
            0..4 => party.lanes[at].go_on(&mut party.end, numbers.below(3_000) + 1),
            4..7 => party.lanes[at].read_on(&mut party.end, numbers.place(4_000)),
            7..10 => self.on_the_way.extend(party.send()),
            10 if numbers.below(40) == 0 => party.lanes[at].abort(&mut party.end),
            11 if self.may_crash && !self.hops.is_empty() && numbers.below(4) == 0 => {
                let place = numbers.place(self.hops.len());
                self.crash(numbers, place);
            }
            _ if !self.on_the_way.is_empty() => {
                let at = numbers.place(self.on_the_way.len());
                self.go_on(at, numbers.below(24) == 0, numbers.below(2) == 0);
            }
            _ => {}
        }
    }

    /// All that is on its way passes, then all that can be sent: whether nothing did.
    fn pass_all(&mut self) -> bool {
        let is_quiet = self.on_the_way.is_empty();
        while !self.on_the_way.is_empty() {
            self.go_on(self.on_the_way.len() - 1, false, false);
        }
        for party in &mut self.parties {
            for lane in &mut party.lanes {
                for _ in 0..3 {
                    lane.go_on(&mut party.end, u64::MAX);
                }
                for _ in 0..3 {
                    lane.read_on(&mut party.end, usize::MAX);
                }
            }
            self.on_the_way.extend(party.send());
        }
        is_quiet && self.on_the_way.is_empty()
    }

    /// That the ends' totals and each hop's balances are what was given and taken.
    fn check_sums(&mut self) {
        assert!(self.parties.iter_mut().all(Party::is_kept));
        for (hop, sums) in self.hops.iter_mut().zip(&self.sums) {
            for account in 0..2 {
                let balances = hop.balances(account).unwrap();
                assert_eq!(balances.claims, sums.claims[account]);
                assert_eq!(balances.dues, sums.dues[account]);
            }
        }
    }

    /// That on each link, each way, what the far node was given and what the near node gave differ by the Fulfills that the near
    /// node never took. Those that a crash cost are at most what was open then.
    fn check_links(&mut self) {
        let last = self.hops.len();
        for role in [Role::Client, Role::Server] {
            let from = side(role);
            for count in 0..=last {
                let given = match count {
                    _ if count == last => self.parties[1 - from].credited,
                    _ => self.sums[self.hop(role, count)].claims[from],
                };
                let taken = match count {
                    0 => self.parties[from].paid,
                    _ => self.sums[self.hop(role, count - 1)].dues[1 - from],
                };
                let missed = self.missed[self.link(role, count)];
                let (lost, late) = (missed.lost[from], missed.late[from]);
                assert_eq!(given - taken, lost + late);
                assert!(late <= missed.open_at_crashes[from]);
            }
        }
    }

    /// What crashes cost on all links.
    fn cost(&self) -> u64 {
        self.missed.iter().flat_map(|it| it.late).sum()
    }

    /// That nothing is reserved, and all that was written and offered arrived, except for what was aborted.
    fn check_done(&mut self) {
        for hop in &mut self.hops {
            assert_eq!(
                hop.balances(0).unwrap().held + hop.balances(1).unwrap().held,
                0
            );
        }
        let [client, server] = &mut self.parties;
        for (one, other) in client.lanes.iter().zip(&server.lanes) {
            assert!(one.is_done(&mut client.end, other) && other.is_done(&mut server.end, one));
        }
        for party in [client, server] {
            let offers: u64 = party.lanes.iter().map(Lane::money).sum();
            assert!(party.paid == offers || self.may_abort && party.paid < offers);
            assert!(!party.end.is_failed().unwrap());
        }
    }
}

/// What crashes cost in all runs.
static COST: AtomicU64 = AtomicU64::new(0);

/// The chain of a seed: much happens, and then everything passes.
fn run(seed: u64) {
    let mut numbers = Numbers::of(seed);
    let mut chain = Chain::new(&mut numbers);
    for _ in 0..STEPS {
        chain.step(&mut numbers);
        chain.check_sums();
    }
    assert!((0..ROUNDS).any(|_| chain.pass_all()));
    chain.check_sums();
    chain.check_links();
    chain.check_done();
    COST.fetch_add(chain.cost(), Ordering::Relaxed);
}

#[test]
fn what_each_node_reports_is_what_came_over_its_links() {
    for_each(SEEDS, run);
    assert!(0 < COST.load(Ordering::Relaxed));
}
