//! The Telegram Problem as a Rust programmer would write it. `telegram channels IN OUT SIZE` runs one thread a process, bounded channels
//! of 10 and an owned packet for each line and word; `telegram plain IN OUT SIZE` is a plain loop without packets.

use std::sync::mpsc::sync_channel;
use std::{env, fs, io, thread};

struct Packet {
    text: Vec<u8>,
}

const CAPACITY: usize = 10;

fn lines(input: &[u8]) -> impl Iterator<Item = &[u8]> {
    let text = input.strip_suffix(b"\n").unwrap_or(input);
    let some = !input.is_empty();
    text.split(|byte| *byte == b'\n').filter(move |_| some).map(|line| line.strip_suffix(b"\r").unwrap_or(line))
}

fn words(line: &[u8]) -> impl Iterator<Item = &[u8]> {
    line.split(|byte| *byte == b' ' || *byte == b'\t').filter(|word| !word.is_empty())
}

/// Adds a word to the line in hand, and gives the line where that is full.
fn fill(line: &mut Vec<u8>, word: &[u8], size: usize) -> Option<Vec<u8>> {
    if line.is_empty() {
        line.extend_from_slice(word);
        return None;
    }
    if line.len() + 1 + word.len() <= size {
        line.push(b' ');
        line.extend_from_slice(word);
        return None;
    }
    Some(std::mem::replace(line, word.to_vec()))
}

fn channels(input: Vec<u8>, size: usize) -> Vec<u8> {
    let (read_out, words_in) = sync_channel::<Packet>(CAPACITY);
    let (words_out, fill_in) = sync_channel::<Packet>(CAPACITY);
    let (fill_out, write_in) = sync_channel::<Packet>(CAPACITY);
    let reader = thread::spawn(move || {
        for line in lines(&input) {
            read_out.send(Packet { text: line.to_vec() }).expect("the words are read");
        }
    });
    let splitter = thread::spawn(move || {
        for packet in words_in {
            for word in words(&packet.text) {
                words_out.send(Packet { text: word.to_vec() }).expect("the words are filled");
            }
        }
    });
    let filler = thread::spawn(move || {
        let mut line = Vec::new();
        for packet in fill_in {
            if let Some(text) = fill(&mut line, &packet.text, size) {
                fill_out.send(Packet { text }).expect("the lines are written");
            }
        }
        if !line.is_empty() {
            fill_out.send(Packet { text: line }).expect("the last line is written");
        }
    });
    let mut output = Vec::new();
    for packet in write_in {
        output.extend_from_slice(&packet.text);
        output.push(b'\n');
    }
    reader.join().expect("the reader ends");
    splitter.join().expect("the splitter ends");
    filler.join().expect("the filler ends");
    output
}

fn plain(input: &[u8], size: usize) -> Vec<u8> {
    let mut output = Vec::new();
    let mut column = 0;
    for word in lines(input).flat_map(words) {
        if column == 0 {
            column = word.len();
        } else if column + 1 + word.len() <= size {
            output.push(b' ');
            column += 1 + word.len();
        } else {
            output.push(b'\n');
            column = word.len();
        }
        output.extend_from_slice(word);
    }
    if column > 0 {
        output.push(b'\n');
    }
    output
}

fn main() -> io::Result<()> {
    let arguments: Vec<String> = env::args().skip(1).collect();
    let [way, from, to, size] = arguments.as_slice() else {
        eprintln!("usage: telegram channels|plain IN OUT SIZE");
        std::process::exit(2);
    };
    let size = size.parse().expect("a size");
    let input = fs::read(from)?;
    let output = if way == "plain" { plain(&input, size) } else { channels(input, size) };
    fs::write(to, output)
}
