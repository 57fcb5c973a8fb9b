//! What a Rust programmer would write for the copying network. `rival channels IN OUT` copies the lines of IN to OUT, each ended by a
//! line feed, by three threads, bounded channels of 10 and an owned packet for each line; `rival plain IN OUT` by a plain loop.

use std::sync::mpsc::sync_channel;
use std::{env, fs, io, thread};

struct Packet {
    text: Vec<u8>,
}

const CAPACITY: usize = 10;

fn lines(input: &[u8]) -> impl Iterator<Item = &[u8]> {
    let text = input.strip_suffix(b"\n").unwrap_or(input);
    let some = !input.is_empty();
    text.split(|byte| *byte == b'\n').filter(move |_| some).map(|line| line.strip_suffix(b"\r").unwrap_or(line))
}

fn channels(input: Vec<u8>) -> Vec<u8> {
    let (read_out, pass_in) = sync_channel::<Packet>(CAPACITY);
    let (pass_out, write_in) = sync_channel::<Packet>(CAPACITY);

    let reader = thread::spawn(move || {
        for line in lines(&input) {
            if read_out.send(Packet { text: line.to_vec() }).is_err() {
                return;
            }
        }
    });
    let passer = thread::spawn(move || {
        for packet in pass_in {
            if pass_out.send(packet).is_err() {
                return;
            }
        }
    });
    let mut output = Vec::new();
    for packet in write_in {
        output.extend_from_slice(&packet.text);
        output.push(b'\n');
    }
    reader.join().expect("the reader ends");
    passer.join().expect("the passer ends");
    output
}

fn plain(input: &[u8]) -> Vec<u8> {
    let mut output = Vec::new();
    for line in lines(input) {
        output.extend_from_slice(line);
        output.push(b'\n');
    }
    output
}

fn main() -> io::Result<()> {
    let words: Vec<String> = env::args().skip(1).collect();
    let [way, from, to] = words.as_slice() else {
        eprintln!("usage: rival channels|plain IN OUT");
        std::process::exit(2);
    };
    let input = fs::read(from)?;
    let output = if way == "plain" { plain(&input) } else { channels(input) };
    fs::write(to, output)
}
