//! Five filters by five threads, with a channel of std between two: pipeline INPUT. bench/crew measures by it what a pipeline of threads costs that is
//! written by hand. Records are kept sorted by label, fields first, as they are printed.
use std::io::{BufWriter, Write};
use std::sync::mpsc::{sync_channel, Receiver, SyncSender};
use std::thread;

const ROOM: usize = 16;

#[derive(Clone)]
enum Value {
    Int(i64),
    Text(String),
}

/// Whether it is a tag, and its name.
type Label = (bool, &'static str);

type Record = Vec<(Label, Value)>;

const NAMES: [&str; 6] = ["c", "key", "label", "n", "name", "r"];

fn get(record: &Record, label: Label) -> &Value {
    &record[record.binary_search_by(|entry| entry.0.cmp(&label)).expect("a label")].1
}

fn set(record: &mut Record, label: Label, value: Value) {
    match record.binary_search_by(|entry| entry.0.cmp(&label)) {
        Ok(at) => record[at].1 = value,
        Err(at) => record.insert(at, (label, value)),
    }
}

fn remove(record: &mut Record, label: Label) -> Value {
    let at = record.binary_search_by(|entry| entry.0.cmp(&label)).expect("a label");
    record.remove(at).1
}

fn int(value: &Value) -> i64 {
    match value {
        Value::Int(n) => *n,
        Value::Text(_) => panic!("no number"),
    }
}

fn rename(mut record: Record, out: &SyncSender<Record>) {
    let name = remove(&mut record, (false, "name"));
    set(&mut record, (false, "label"), name);
    out.send(record).expect("a reader");
}

fn drop_key(mut record: Record, out: &SyncSender<Record>) {
    remove(&mut record, (false, "key"));
    out.send(record).expect("a reader");
}

fn compute(mut record: Record, out: &SyncSender<Record>) {
    let n = int(get(&record, (true, "n")));
    set(&mut record, (true, "r"), Value::Int(n.checked_mul(n).expect("no overflow") % 97));
    out.send(record).expect("a reader");
}

fn double(record: Record, out: &SyncSender<Record>) {
    for c in 0..2 {
        let mut copy = record.clone();
        set(&mut copy, (true, "c"), Value::Int(c));
        out.send(copy).expect("a reader");
    }
}

fn count(mut record: Record, out: &SyncSender<Record>) {
    let n = int(get(&record, (true, "n")));
    set(&mut record, (true, "n"), Value::Int(n.checked_add(1).expect("no overflow")));
    out.send(record).expect("a reader");
}

/// A thread that does so to each record that comes.
fn stage(input: Receiver<Record>, work: fn(Record, &SyncSender<Record>)) -> Receiver<Record> {
    let (out, next) = sync_channel(ROOM);
    thread::spawn(move || input.into_iter().for_each(|record| work(record, &out)));
    next
}

/// The record of a line such as `{key="k1", <n>=1}`, whose texts have neither a comma nor an escape.
fn parse(line: &str) -> Record {
    let mut record = Record::new();
    for entry in line.trim_matches(['{', '}']).split(", ") {
        let (label, value) = entry.split_once('=').expect("a value");
        let is_tag = label.starts_with('<');
        let spelled = label.trim_matches(['<', '>']);
        let name = NAMES.into_iter().find(|name| *name == spelled).expect("a name");
        let value = match value.strip_prefix('"') {
            Some(text) => Value::Text(text.trim_end_matches('"').to_string()),
            None => Value::Int(value.parse().expect("a number")),
        };
        set(&mut record, (is_tag, name), value);
    }
    record
}

fn print(record: &Record, out: &mut impl Write) -> std::io::Result<()> {
    let mut before = "{";
    for ((is_tag, name), value) in record {
        let (open, close) = if *is_tag { ("<", ">") } else { ("", "") };
        match value {
            Value::Int(n) => write!(out, "{before}{open}{name}{close}={n}")?,
            Value::Text(text) => write!(out, "{before}{open}{name}{close}={text:?}")?,
        }
        before = ", ";
    }
    out.write_all(b"}\n")
}

fn main() {
    let path = std::env::args().nth(1).expect("an input");
    let text = std::fs::read_to_string(path).expect("a file");
    let records: Vec<Record> = text.lines().map(parse).collect();
    let (source, mut last) = sync_channel(ROOM);
    thread::spawn(move || records.into_iter().for_each(|record| source.send(record).expect("a reader")));
    for work in [rename, drop_key, compute, double, count] {
        last = stage(last, work);
    }
    let mut out = BufWriter::new(std::io::stdout().lock());
    for record in last {
        print(&record, &mut out).expect("an output");
    }
    out.flush().expect("an output");
}
