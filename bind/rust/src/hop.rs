//! A hop: the connector between a sender and a receiver.

use crate::error::{DONE, Error, ONWARD, done};
use crate::output::{output, text};
use crate::raw::{self, Handle};

/// A neighbour's terms, in units of its link.
#[repr(C)]
#[derive(Clone, Copy, Debug, PartialEq, Eq)]
pub struct Account {
    /// How much it may owe the hop beyond what the hop owes it, at most 2^63 - 1.
    pub limit: u64,
    /// The greatest amount of one Prepare from it.
    pub max_packet: u64,
}

/// The account to which Prepares are sent whose destination has a prefix. If several routes fit, that of the longest prefix
/// counts.
#[derive(Clone, Copy, Debug, PartialEq, Eq)]
pub struct Route<'a> {
    /// An ILP address.
    pub prefix: &'a str,
    /// To which account they are sent on.
    pub account: usize,
    /// The amount that is sent on is that which arrived times `num` / `den`, rounded down.
    pub num: u32,
    /// Not 0.
    pub den: u32,
}

/// The number of a Prepare that was sent on. It is settled once.
#[derive(Clone, Copy, Debug, PartialEq, Eq, Hash)]
pub struct Ticket(u64);

impl Ticket {
    /// The number.
    pub fn number(self) -> u64 {
        self.0
    }
}

/// What becomes of a Prepare that arrives.
#[derive(Clone, Debug, PartialEq, Eq)]
pub enum Verdict {
    /// This Reject is to be sent back.
    Answer(Vec<u8>),
    /// This Prepare is to be sent on.
    Forward {
        /// By which its answer is reported.
        ticket: Ticket,
        /// To whom it is sent.
        account: usize,
        /// The ILP Prepare.
        bytes: Vec<u8>,
    },
}

/// What a hop and a neighbour owe each other, in units of their link.
#[repr(C)]
#[derive(Clone, Copy, Debug, Default, PartialEq, Eq)]
pub struct Balances {
    /// What the account owes the hop.
    pub claims: u64,
    /// What the hop owes the account.
    pub dues: u64,
    /// What is reserved of the account until its Prepares are answered.
    pub held: u64,
}

/// What a ticket books, in units of the accounts' links.
#[derive(Clone, Copy, Debug, PartialEq, Eq)]
pub struct Booking {
    /// The account that the Prepare arrived from.
    pub payer: usize,
    /// What it owes more.
    pub claim: u64,
    /// The account that the Prepare was sent on to.
    pub payee: usize,
    /// What it is owed more.
    pub due: u64,
}

/// Routes, with their prefixes one after another.
fn table(routes: &[Route<'_>]) -> (String, Vec<raw::Route>) {
    let prefixes = routes.iter().map(|route| route.prefix).collect();
    let routes = routes.iter().map(|route| raw::Route {
        prefix_len: route.prefix.len(),
        account: route.account,
        num: route.num,
        den: route.den,
    });
    (prefixes, routes.collect())
}

/// A hop (RFC 0027): it sends Prepares on by its routes, holds their amounts against the accounts that they came from, and
/// books those that are fulfilled in time. It does no I/O and knows no clock.
///
/// ```
/// use ilpstream::{Account, Hop, Route, Verdict};
///
/// # fn main() -> Result<(), ilpstream::Error> {
/// let terms = Account { limit: 1_000, max_packet: 500 };
/// let routes = [Route { prefix: "example.bob", account: 1, num: 1, den: 1 }];
/// let mut hop = Hop::new("example.hub", &[terms, terms], &routes)?;
/// let Verdict::Answer(reject) = hop.arrive(0, b"no Prepare", 0)? else {
///     panic!("it is sent on");
/// };
/// assert_eq!(reject[0], 14); // the type of a Reject
/// assert_eq!(hop.balances(0)?.claims, 0);
/// # Ok(())
/// # }
/// ```
#[derive(Debug)]
pub struct Hop {
    handle: Handle,
}

impl Hop {
    /// A hop with its own ILP address, its accounts, numbered from 0, and its routes. Nothing is owed yet. [`Error::Argument`]
    /// if one is not an ILP address (RFC 0015), or a rate has 0 below; [`Error::BadTable`], [`Error::HopOutOfMemory`].
    pub fn new(own: &str, accounts: &[Account], routes: &[Route<'_>]) -> Result<Hop, Error> {
        let mut handle = Handle::empty();
        let (prefixes, routes) = table(routes);
        done(raw::hop_new(&mut handle, own, accounts, &prefixes, &routes))?;
        Ok(Hop { handle })
    }

    /// A hop with the books of an earlier one: by account, what it owes the hop, and what the hop owes it. No ticket is open.
    /// Tickets are numbered from `next` on, which has to be above each number that an earlier hop with these books gave out.
    /// Refused as [`Hop::new`] is, and as [`Error::BadBooks`] if not each account has a claim and a due, one owes more than
    /// its limit beyond its due, or a sum is above 2^63 - 1.
    ///
    /// ```
    /// use ilpstream::{Account, Balances, Error, Hop};
    ///
    /// # fn main() -> Result<(), Error> {
    /// let terms = Account { limit: 1_000, max_packet: 500 };
    /// let mut hop = Hop::restored("example.hub", &[terms], &[], &[40], &[7], 1 << 44)?;
    /// assert_eq!(hop.balances(0)?, Balances { claims: 40, dues: 7, held: 0 });
    /// let refused = Hop::restored("example.hub", &[terms], &[], &[1_008], &[7], 1 << 44);
    /// assert_eq!(refused.err(), Some(Error::BadBooks));
    /// # Ok(())
    /// # }
    /// ```
    pub fn restored(
        own: &str,
        accounts: &[Account],
        routes: &[Route<'_>],
        claims: &[u64],
        dues: &[u64],
        next: u64,
    ) -> Result<Hop, Error> {
        let mut handle = Handle::empty();
        let (prefixes, routes) = table(routes);
        let restored = raw::Restored {
            own,
            accounts,
            prefixes: &prefixes,
            routes: &routes,
            claims,
            dues,
            next,
        };
        done(raw::hop_restored(&mut handle, &restored))?;
        Ok(Hop { handle })
    }

    /// Forgets every open ticket, as a crash and a start with the same books do. Claims and dues stay, nothing is reserved any
    /// more, and the numbers of tickets continue: for a ticket of before, each call is [`Error::Unknown`].
    pub fn restart(&mut self) -> Result<(), Error> {
        done(raw::ilp_hop_restart(&mut self.handle))
    }

    /// What becomes of a Prepare that came from an account at the time `now`, in milliseconds after 1970-01-01 00:00 UTC. If
    /// it is sent on, its amount is reserved until the ticket is settled. [`Error::NoAccount`]; [`Error::Argument`] if `now` is
    /// before 1970 or after 9999. [`Error::HopOutOfMemory`]: answer it
    /// with [`Hop::t00`], and the sender sends again.
    pub fn arrive(&mut self, account: usize, bytes: &[u8], now: i64) -> Result<Verdict, Error> {
        let mut arrived = raw::Arrived::default();
        match raw::hop_arrive(&mut self.handle, account, bytes, now, &mut arrived) {
            DONE => Ok(Verdict::Answer(output(&self.handle, arrived.len)?)),
            ONWARD => Ok(Verdict::Forward {
                ticket: Ticket(arrived.ticket),
                account: arrived.account,
                bytes: output(&self.handle, arrived.len)?,
            }),
            number => Err(Error::of(number)),
        }
    }

    /// What [`Hop::settle`] with the same arguments would book, if it would. It changes nothing. [`Error::Unknown`],
    /// [`Error::HopOutOfMemory`].
    ///
    /// A host that keeps books of its own stores the booking before it settles the ticket, with the same bytes and the same
    /// time, and sends the answer back after that:
    ///
    /// ```
    /// use ilpstream::{Booking, Error, Hop, Ticket};
    ///
    /// fn end(
    ///     hop: &mut Hop,
    ///     ticket: Ticket,
    ///     answer: &[u8],
    ///     now: i64,
    ///     store: impl FnOnce(Booking) -> bool,
    /// ) -> Result<Vec<u8>, Error> {
    ///     match hop.books(ticket, answer, now)? {
    ///         Some(booking) if !store(booking) => hop.fault(ticket),
    ///         _ => hop.settle(ticket, answer, now),
    ///     }
    /// }
    /// ```
    pub fn books(&self, ticket: Ticket, bytes: &[u8], now: i64) -> Result<Option<Booking>, Error> {
        let mut it = raw::Booking::default();
        done(raw::hop_books(&self.handle, ticket.0, bytes, now, &mut it))?;
        Ok((it.books == 1).then_some(Booking {
            payer: it.payer,
            claim: it.claim,
            payee: it.payee,
            due: it.due,
        }))
    }

    /// Settles a ticket by the bytes of its answer, and gives those that are to be sent back. A Fulfill that fits and came in
    /// time is booked; all else becomes a Reject. [`Error::Unknown`] if the ticket is not open; [`Error::HopOutOfMemory`],
    /// after which it still is.
    pub fn settle(&mut self, ticket: Ticket, bytes: &[u8], now: i64) -> Result<Vec<u8>, Error> {
        let mut len = 0;
        done(raw::hop_settle(
            &mut self.handle,
            ticket.0,
            bytes,
            now,
            &mut len,
        ))?;
        output(&self.handle, len)
    }

    /// The same if no answer arrived, and none is waited for: a Reject T01. [`Error::Unknown`].
    pub fn fault(&mut self, ticket: Ticket) -> Result<Vec<u8>, Error> {
        let mut len = 0;
        done(raw::ilp_hop_fault(&mut self.handle, ticket.0, &mut len))?;
        output(&self.handle, len)
    }

    /// Gives up a ticket without an answer. The amount stays reserved. [`Error::Unknown`].
    pub fn abandon(&mut self, ticket: Ticket) -> Result<(), Error> {
        done(raw::ilp_hop_abandon(&mut self.handle, ticket.0))
    }

    /// A Reject T00 that is kept ready, for use if memory is refused.
    pub fn t00(&self) -> Result<Vec<u8>, Error> {
        text(|out, len| raw::hop_t00(&self.handle, out, len))
    }

    /// What an account owes the hop, what the hop owes it, and what is reserved of it. [`Error::NoAccount`].
    pub fn balances(&self, account: usize) -> Result<Balances, Error> {
        let mut balances = Balances::default();
        done(raw::ilp_hop_balances(&self.handle, account, &mut balances))?;
        Ok(balances)
    }
}
