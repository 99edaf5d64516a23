//! Keys and ends leave nothing of a secret in memory once they are dropped. The arguments are patterns as hexadecimal digits, of
//! which the first is a secret of 32 bytes and the others are its keys, as tests/bindings.py computes them, which runs it. No part of
//! a pattern is in any memory of the process that can be written then.

use ilpstream::{End, EndConfig, Keys, Role};
use std::fs;

/// Each byte of a pattern is changed by this: the program has none as it is.
const MASK: u8 = 0xa7;
const PART: usize = 16;

/// A pattern of hexadecimal digits, each byte changed.
fn pattern(digits: &str) -> Vec<u8> {
    let bytes = (0..digits.len()).step_by(2);
    bytes
        .map(|at| u8::from_str_radix(&digits[at..at + 2], 16).expect("hexadecimal digits") ^ MASK)
        .collect()
}

/// How often a part of a pattern is in all memory that can be written.
fn found(parts: &[&[u8]]) -> usize {
    let maps = fs::read_to_string("/proc/self/maps").expect("/proc/self/maps");
    let mut count = 0;
    for line in maps.lines().filter(|line| line.contains(" rw")) {
        let (from, rest) = line.split_once('-').expect("a range");
        let to = rest.split_once(' ').expect("a range").0;
        let [from, to] = [from, to].map(|it| usize::from_str_radix(it, 16).expect("an address"));
        for at in from..to - PART {
            // SAFETY: the range can be read, by what the system says of it.
            let byte = |it: usize| unsafe { ((at + it) as *const u8).read_volatile() };
            count += parts
                .iter()
                .filter(|part| (0..PART).all(|it| byte(it) ^ MASK == part[it]))
                .count();
        }
    }
    count
}

/// What a program does with a secret; the caller's own copy is overwritten.
fn with_secret<T>(pattern: &[u8], call: impl FnOnce(&[u8; 32]) -> T) -> T {
    let mut secret = [0; 32];
    for (byte, it) in secret.iter_mut().zip(pattern) {
        *byte = it ^ MASK;
    }
    let result = call(&secret);
    for byte in &mut secret {
        // SAFETY: it is a reference.
        unsafe { (byte as *mut u8).write_volatile(0) };
    }
    result
}

fn main() -> Result<(), Box<dyn std::error::Error>> {
    let patterns: Vec<Vec<u8>> = std::env::args().skip(1).map(|it| pattern(&it)).collect();
    let parts: Vec<&[u8]> = patterns
        .iter()
        .flat_map(|it| it.chunks_exact(PART))
        .collect();
    let mut keys = with_secret(&patterns[0], Keys::new)?;
    let alive = found(&parts);
    let payload = keys.seal(&[1; 12], b"text")?;
    assert_eq!(keys.open(&payload)?, b"text");
    drop(keys);
    let after_keys = found(&parts);

    let config = EndConfig::default();
    let end = |role, own, peer| {
        with_secret(&patterns[0], |secret| {
            End::new(role, secret, own, peer, config)
        })
    };
    let mut client = end(Role::Client, "test.a", "test.b")?;
    let mut server = end(Role::Server, "test.b", "test.a")?;
    let stream = client.open_stream()?;
    client.write(stream, &[7; 50_000])?;
    let mut iv = [0; 12];
    loop {
        iv[0] += 1;
        let Some(prepare) = client.send(&iv, 0)? else {
            break;
        };
        let mut answer = server.receive(&prepare.bytes, 0)?.bytes;
        assert!(client.answer(prepare.flight, &mut answer)?);
    }
    drop((client, server));
    let after_ends = found(&parts);
    println!(
        "patterns: {alive} while keys are in use, {after_keys} after, {after_ends} after ends"
    );
    assert!(alive > 0 && after_keys == 0 && after_ends == 0);
    Ok(())
}
