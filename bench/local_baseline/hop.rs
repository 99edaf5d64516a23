//! A hop of a chain: a connector (RFC 0027) with an account towards each end.

use crate::ends::{CLIENT, SERVER};
use crate::packets::{Answer, Malformed, Prepare, read_answer, read_prepare, write_prepare, write_reject};
use crate::sha256::sha256;
use std::collections::HashMap;

/// What a hop takes off the time of a Prepare, in milliseconds.
const HOP_TIME: i64 = 1_000;
const MOST: u64 = i64::MAX as u64;

#[derive(Default)]
struct Account {
    /// What the account owes, what it is owed, and what is reserved for Prepares from it without an answer.
    claims: u64,
    dues: u64,
    held: u64,
}

/// A Prepare that was forwarded and has no answer.
struct Ticket {
    from: usize,
    to: usize,
    amount: u64,
    expiry: i64,
    condition: [u8; 32],
}

pub struct Hop {
    address: String,
    accounts: [Account; 2],
    /// The account to which each prefix of an address leads.
    routes: HashMap<&'static str, usize>,
    tickets: HashMap<u64, Ticket>,
    next: u64,
}

impl Hop {
    /// The hop of a number from 1. Its account 0 leads to the client, and 1 to the server.
    pub fn new(number: usize) -> Hop {
        Hop {
            address: format!("test.h{number}"),
            accounts: Default::default(),
            routes: HashMap::from([(CLIENT, 0), (SERVER, 1)]),
            tickets: HashMap::new(),
            next: 0,
        }
    }

    /// The account of the longest prefix of whole segments that is a route.
    fn route(&self, destination: &str) -> Option<usize> {
        let mut prefix = destination;
        loop {
            match self.routes.get(prefix) {
                Some(account) => return Some(*account),
                None => prefix = prefix.rsplit_once('.')?.0,
            }
        }
    }

    fn reject(&self, code: &[u8; 3]) -> Vec<u8> {
        write_reject(code, &self.address)
    }

    /// Reserves what a Prepare from an account has: the number of its ticket, and the Prepare that is sent on. Otherwise the Reject.
    pub fn arrive(&mut self, from: usize, bytes: &[u8], now: i64) -> Result<(u64, Vec<u8>), Vec<u8>> {
        let prepare = read_prepare(bytes).map_err(|Malformed| self.reject(b"F01"))?;
        let (amount, condition, expiry) = (prepare.amount, prepare.condition, prepare.expiry - HOP_TIME);
        if amount > MOST {
            return Err(self.reject(b"F08"));
        }
        if expiry <= now {
            return Err(self.reject(b"R02"));
        }
        let to = self.route(prepare.destination).filter(|to| *to != from).ok_or_else(|| self.reject(b"F02"))?;
        let account = &mut self.accounts[from];
        if account.claims + account.held + amount > MOST {
            return Err(self.reject(b"T04"));
        }
        account.held += amount;
        self.next += 1;
        self.tickets.insert(self.next, Ticket { from, to, amount, expiry, condition });
        Ok((self.next, write_prepare(&Prepare { expiry, ..prepare })))
    }

    /// Ends a ticket: books its amount if the answer is the right Fulfill, in time. The answer that is passed back.
    pub fn settle(&mut self, ticket: u64, answer: Vec<u8>, now: i64) -> Vec<u8> {
        let Some(ticket) = self.tickets.remove(&ticket) else { return self.reject(b"T00") };
        self.accounts[ticket.from].held -= ticket.amount;
        match read_answer(&answer) {
            Ok(Answer::Fulfill { fulfillment, .. }) if sha256(&fulfillment) != ticket.condition => self.reject(b"F05"),
            Ok(Answer::Fulfill { .. }) if now >= ticket.expiry => self.reject(b"R00"),
            Ok(Answer::Fulfill { .. }) => {
                self.accounts[ticket.from].claims += ticket.amount;
                self.accounts[ticket.to].dues += ticket.amount;
                answer
            }
            Ok(Answer::Reject { .. }) => answer,
            Err(Malformed) => self.reject(b"T01"),
        }
    }
}
