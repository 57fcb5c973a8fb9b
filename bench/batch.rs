//! What a Rust programmer would write for the batch update without packets: one loop over two sorted files and one balance.
//! `batch MASTERS DETAILS NEW REFUSED KEYLEN` writes the new masters and the records that were refused.

use std::iter::Peekable;
use std::{env, fs, io, process};

const LIMIT: u64 = 1_000_000_000_000_000;

/// The lines of a file.
fn lines(bytes: &[u8]) -> impl Iterator<Item = &[u8]> {
    let text = bytes.strip_suffix(b"\n").unwrap_or(bytes);
    let some = (!bytes.is_empty()).then(|| text.split(|byte| *byte == b'\n'));
    some.into_iter().flatten().map(|line| line.strip_suffix(b"\r").unwrap_or(line))
}

/// The key of a record, or the whole where it is shorter.
fn key_of(record: &[u8], keylen: usize) -> &[u8] {
    &record[..keylen.min(record.len())]
}

/// The next record of both, by its key; masters before details.
fn next<'a, I: Iterator<Item = &'a [u8]>>(masters: &mut Peekable<I>, details: &mut Peekable<I>, keylen: usize) -> Option<&'a [u8]> {
    match (masters.peek(), details.peek()) {
        (Some(master), Some(detail)) if key_of(detail, keylen) < key_of(master, keylen) => details.next(),
        (Some(_), _) => masters.next(),
        (None, _) => details.next(),
    }
}

/// The number that the bytes spell.
fn amount_of(bytes: &[u8]) -> Option<u64> {
    if bytes.is_empty() || bytes.len() > 16 || (bytes[0] == b'0' && bytes.len() > 1) {
        return None;
    }
    let mut amount = 0;
    for byte in bytes {
        if !byte.is_ascii_digit() {
            return None;
        }
        amount = amount * 10 + u64::from(byte - b'0');
    }
    (amount <= LIMIT).then_some(amount)
}

/// The balance after a record of its key, or nothing where the record is refused.
fn posted(balance: Option<u64>, record: &[u8], keylen: usize) -> Option<Option<u64>> {
    let sign = *record.get(keylen)?;
    let amount = amount_of(&record[keylen + 1..])?;
    match (sign, balance) {
        (b'M' | b'N', None) => Some(Some(amount)),
        (b'+', Some(old)) if old + amount <= LIMIT => Some(Some(old + amount)),
        (b'-', Some(old)) if amount <= old => Some(Some(old - amount)),
        (b'X', Some(old)) if amount == old => Some(None),
        _ => None,
    }
}

/// Writes the new master of a key that has an amount.
fn close(new: &mut Vec<u8>, key: &[u8], balance: Option<u64>) {
    if let Some(amount) = balance {
        new.extend_from_slice(key);
        new.push(b'M');
        new.extend_from_slice(amount.to_string().as_bytes());
        new.push(b'\n');
    }
}

fn main() -> io::Result<()> {
    let words: Vec<String> = env::args().skip(1).collect();
    let [masters, details, new_to, refused_to, keylen] = words.as_slice() else {
        eprintln!("usage: batch MASTERS DETAILS NEW REFUSED KEYLEN");
        process::exit(2);
    };
    let keylen: usize = keylen.parse().expect("KEYLEN is a number");
    let (masters, details) = (fs::read(masters)?, fs::read(details)?);
    let (mut masters, mut details) = (lines(&masters).peekable(), lines(&details).peekable());
    let (mut new, mut refused) = (Vec::new(), Vec::new());
    let mut key: &[u8] = &[];
    let mut balance = None;
    while let Some(record) = next(&mut masters, &mut details, keylen) {
        if key_of(record, keylen) != key {
            close(&mut new, key, balance);
            (key, balance) = (key_of(record, keylen), None);
        }
        match posted(balance, record, keylen) {
            Some(after) => balance = after,
            None => {
                refused.extend_from_slice(record);
                refused.push(b'\n');
            }
        }
    }
    close(&mut new, key, balance);
    fs::write(new_to, new)?;
    fs::write(refused_to, refused)
}
