//! Passes entries from one thread to another by a channel of std, and prints how many came: channel CAPACITY COUNT. bench/stream measures by it.
use std::sync::mpsc::sync_channel;
use std::thread;

/// An entry as large as an item of a stream.
#[allow(dead_code)]
struct Entry {
    kind: u32,
    place: u32,
    rest: [u64; 3],
}

fn main() {
    let words: Vec<String> = std::env::args().skip(1).collect();
    let capacity: usize = words[0].parse().expect("a capacity");
    let count: u32 = words[1].parse().expect("a count");
    let (sender, receiver) = sync_channel(capacity);
    let pusher = thread::spawn(move || {
        for place in 0..count {
            let entry = Entry { kind: 1, place, rest: [0; 3] };
            sender.send(entry).expect("a receiver");
        }
    });
    let came = receiver.iter().count();
    pusher.join().expect("the pusher ends");
    println!("entries={came}");
}
