//! The answers of `weblog`, of which each worker makes its own and then they are merged.
use std::collections::hash_map::{Entry, HashMap};
use std::collections::HashSet;
use std::fs::File;
use std::hash::Hash;
use std::io::Read;

const MOST_TOLD: usize = 10;

/// Where a line stands: its block's number, and its own in that.
type Place = (usize, usize);

/// How much was counted of each key, and where it came first.
type Counts<K> = HashMap<K, (Place, i64)>;

/// Blocks of whole lines, of so many bytes at most.
pub struct Blocks<R> {
    reader: R,
    size: usize,
    rest: Vec<u8>,
    is_over: bool,
}

/// Those of the file that the command line names, or of standard input.
pub fn blocks_of(name: Option<String>, size: usize) -> Blocks<Box<dyn Read + Send>> {
    let reader: Box<dyn Read + Send> = match name {
        Some(name) => Box::new(File::open(name).expect("a log")),
        None => Box::new(std::io::stdin()),
    };
    Blocks { reader, size, rest: Vec::new(), is_over: false }
}

impl<R: Read> Iterator for Blocks<R> {
    type Item = String;

    fn next(&mut self) -> Option<String> {
        if self.is_over {
            return None;
        }
        let mut bytes = std::mem::take(&mut self.rest);
        bytes.reserve(self.size);
        let wanted = (self.size - bytes.len()) as u64;
        let read = self.reader.by_ref().take(wanted).read_to_end(&mut bytes).expect("a log that can be read");
        if (read as u64) < wanted {
            self.is_over = true;
        } else {
            let last = bytes.iter().rposition(|byte| *byte == b'\n').expect("lines shorter than a block");
            self.rest = bytes.split_off(last + 1);
        }
        Some(String::from_utf8(bytes).expect("UTF-8"))
    }
}

struct Request<'a> {
    client: &'a str,
    path: &'a str,
    hour: i64,
    status: i64,
    bytes: i64,
}

fn parse(line: &str) -> Result<Request<'_>, &'static str> {
    let mut quoted = line.split('"');
    let (head, asked, tail) = (quoted.next().unwrap_or(""), quoted.next().unwrap_or(""), quoted.next().unwrap_or(""));
    let (front, time) = head.split_once('[').unwrap_or((head, ""));
    let client = front.split(' ').next().unwrap_or("");
    if client.is_empty() || !front.ends_with(" - - ") {
        return Err("no client");
    }
    let hour = time.split(':').nth(1).and_then(|hour| hour.parse().ok()).unwrap_or(-1);
    if !(0..24).contains(&hour) || !head.ends_with("] ") {
        return Err("no time");
    }
    let mut words = asked.split(' ').skip(1);
    let (path, protocol) = (words.next().unwrap_or(""), words.next().unwrap_or(""));
    if path.is_empty() || protocol.is_empty() {
        return Err("no path");
    }
    let mut words = tail.split(' ').skip(1);
    let status = words.next().and_then(|status| status.parse().ok()).unwrap_or(-1);
    if !(100..600).contains(&status) {
        return Err("no status");
    }
    let bytes = words.next().map_or(-1, |sent| if sent == "-" { 0 } else { sent.parse().unwrap_or(-1) });
    if bytes < 0 {
        return Err("no bytes");
    }
    Ok(Request { client, path, hour, status, bytes })
}

#[derive(Default)]
pub struct Answers {
    statuses: Counts<i64>,
    paths: Counts<String>,
    hours: Counts<i64>,
    clients: HashSet<String>,
    failure: Option<(Place, String)>,
    bad: usize,
    faults: Vec<(Place, &'static str)>,
    // how many lines each block has
    lines: Vec<(usize, usize)>,
}

fn add<K: Hash + Eq>(counts: &mut Counts<K>, key: K, place: Place, number: i64) {
    match counts.entry(key) {
        Entry::Occupied(mut entry) => {
            let count = entry.get_mut();
            *count = (count.0.min(place), count.1 + number);
        }
        Entry::Vacant(entry) => {
            entry.insert((place, number));
        }
    }
}

impl Answers {
    pub fn take(mut self, (block, text): (usize, &str)) -> Answers {
        let mut count = 0;
        for line in text.lines() {
            let place = (block, count);
            count += 1;
            match parse(line) {
                Ok(request) => self.take_request(place, &request),
                Err(fault) => {
                    self.bad += 1;
                    self.faults.push((place, fault));
                }
            }
        }
        self.faults.sort_unstable();
        self.faults.truncate(MOST_TOLD);
        self.lines.push((block, count));
        self
    }

    fn take_request(&mut self, place: Place, request: &Request<'_>) {
        add(&mut self.statuses, request.status, place, 1);
        add(&mut self.hours, request.hour, place, request.bytes);
        match self.paths.get_mut(request.path) {
            Some(count) => *count = (count.0.min(place), count.1 + 1),
            None => {
                self.paths.insert(request.path.to_owned(), (place, 1));
            }
        }
        if !self.clients.contains(request.client) {
            self.clients.insert(request.client.to_owned());
        }
        if request.status > 499 && !self.failure.as_ref().is_some_and(|failure| failure.0 < place) {
            self.failure = Some((place, format!("{} {}", request.status, request.path)));
        }
    }

    pub fn merge(mut self, other: Answers) -> Answers {
        other.statuses.into_iter().for_each(|(key, (place, number))| add(&mut self.statuses, key, place, number));
        other.hours.into_iter().for_each(|(key, (place, number))| add(&mut self.hours, key, place, number));
        other.paths.into_iter().for_each(|(key, (place, number))| add(&mut self.paths, key, place, number));
        self.clients.extend(other.clients);
        self.failure = self.failure.into_iter().chain(other.failure).min();
        self.bad += other.bad;
        self.faults.extend(other.faults);
        self.faults.sort_unstable();
        self.faults.truncate(MOST_TOLD);
        self.lines.extend(other.lines);
        self
    }

    pub fn tell(mut self) {
        self.lines.sort_unstable();
        for ((block, at), fault) in &self.faults {
            let before: usize = self.lines[..*block].iter().map(|(_, count)| count).sum();
            eprintln!("weblog: line {}: {fault}", before + at + 1);
        }
        let mut paths: Vec<_> = self.paths.into_iter().collect();
        paths.sort_unstable_by_key(|(_, (place, number))| (-number, *place));
        println!("requests by status: {}", told(self.statuses));
        paths.iter().take(3).for_each(|(path, (_, number))| println!("path {path}: {number}"));
        println!("first failure: {}", self.failure.map_or("none".to_owned(), |failure| failure.1));
        println!("clients: {}", self.clients.len());
        println!("bytes by hour: {}", told(self.hours));
        println!("bad lines: {}", self.bad);
    }
}

/// Counts in the order of their first lines.
fn told(counts: Counts<i64>) -> String {
    let mut entries: Vec<_> = counts.into_iter().collect();
    entries.sort_unstable_by_key(|(_, (place, _))| *place);
    let entries: Vec<_> = entries.iter().map(|(key, (_, number))| format!("{key}: {number}")).collect();
    format!("{{{}}}", entries.join(", "))
}
