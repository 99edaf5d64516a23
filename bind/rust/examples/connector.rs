//! A connector between neighbours over TCP:
//!
//!     connector LISTEN OWN < TABLE
//!
//! A line of the table is `account LIMIT MAX TOKEN`, with ` ADDRESS TOKEN` after it if Prepares are sent to the neighbour, or
//! `route PREFIX ACCOUNT [NUM DEN]`. It answers one request after another, writes the balances after each, and runs until it is
//! stopped.

mod link;

use ilpstream::{Account, Error, Hop, Route, Verdict, now};
use std::io;
use std::net::{TcpListener, TcpStream};

type Fault = Box<dyn std::error::Error>;

/// A neighbour: the token that it shows here, and the host and port at which it accepts Prepares, with the token to show there.
struct Neighbour {
    token: String,
    next: Option<(String, String)>,
}

/// The lines of a table, as accounts, neighbours and routes.
#[derive(Default)]
struct Table {
    accounts: Vec<Account>,
    neighbours: Vec<Neighbour>,
    routes: Vec<(String, usize, u32, u32)>,
}

impl Table {
    fn add(&mut self, line: &str) -> Result<(), Fault> {
        match line.split_whitespace().collect::<Vec<_>>()[..] {
            ["account", limit, max, token, ref next @ ..] => {
                let (limit, max_packet) = (limit.parse()?, max.parse()?);
                self.accounts.push(Account { limit, max_packet });
                let next = match next {
                    [] => None,
                    [address, token] => Some((address.to_string(), token.to_string())),
                    _ => return Err(format!("bad line: {line}").into()),
                };
                let token = token.to_string();
                self.neighbours.push(Neighbour { token, next });
            }
            ["route", prefix, account] => {
                self.routes.push((prefix.into(), account.parse()?, 1, 1));
            }
            ["route", prefix, account, num, den] => {
                let (num, den) = (num.parse()?, den.parse()?);
                self.routes
                    .push((prefix.into(), account.parse()?, num, den));
            }
            [] => {}
            _ => return Err(format!("bad line: {line}").into()),
        }
        Ok(())
    }

    fn hop(&self, own: &str) -> Result<Hop, Error> {
        let routes = self.routes.iter().map(|(prefix, account, num, den)| Route {
            prefix,
            account: *account,
            num: *num,
            den: *den,
        });
        Hop::new(own, &self.accounts, &routes.collect::<Vec<_>>())
    }
}

/// What a neighbour answers to a Prepare that is sent on to it, if it does.
fn ask(neighbour: &Neighbour, packet: &[u8]) -> io::Result<Vec<u8>> {
    let (address, token) = neighbour.next.as_ref().ok_or(io::ErrorKind::NotFound)?;
    link::exchange(address, token, packet)
}

/// Answers one request.
fn serve(hop: &mut Hop, neighbours: &[Neighbour], stream: &mut TcpStream) -> Result<(), Fault> {
    let tokens: Vec<&str> = neighbours.iter().map(|it| it.token.as_str()).collect();
    let (from, packet) = link::receive(stream, &tokens)?;
    let answer = match hop.arrive(from, &packet, now()) {
        Ok(Verdict::Answer(bytes)) => bytes,
        Ok(Verdict::Forward {
            ticket,
            account,
            bytes,
        }) => match ask(&neighbours[account], &bytes) {
            Ok(back) => hop.settle(ticket, &back, now())?,
            Err(_) => hop.fault(ticket)?,
        },
        Err(Error::HopOutOfMemory) => hop.t00()?,
        Err(error) => return Err(error.into()),
    };
    Ok(link::answer(stream, &answer)?)
}

fn main() -> Result<(), Fault> {
    let words: Vec<String> = std::env::args().skip(1).collect();
    let [listen, own] = &words[..] else {
        return Err("connector LISTEN OWN < TABLE".into());
    };
    let mut table = Table::default();
    for line in io::stdin().lines() {
        table.add(&line?)?;
    }
    let mut hop = table.hop(own)?;
    let listener = TcpListener::bind(listen)?;
    eprintln!("listening on {}", listener.local_addr()?);
    for stream in listener.incoming() {
        if let Err(error) = serve(&mut hop, &table.neighbours, &mut stream?) {
            eprintln!("a request was not answered: {error}");
        }
        for account in 0..table.accounts.len() {
            let it = hop.balances(account)?;
            println!(
                "account {account} claims {} dues {} held {}",
                it.claims, it.dues, it.held
            );
        }
    }
    Ok(())
}
