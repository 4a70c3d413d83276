//! The page of a deck that has no fault, on one thread, as a Rust program would have it without a proof:
//! records are cut by the machine of the crate `csv`, and each goes through the state of its line, which takes no memory
//! of its own.
use csv_core::ReadRecordResult;
use std::error::Error;
use std::io::{self, Read, Write};

type Fault = Box<dyn Error>;

const LINES: usize = 10_000;
const MARK: &[u8] = b"\n---\n";
const MOST_RECORD_BYTES: usize = 64;
const MOST_FIELDS: usize = 4;

struct Limits {
    pulse_min: u64,
    pulse_max: u64,
    make_min: u64,
    pause: u64,
    release: u64,
    timeout: u64,
}

struct Route {
    code: Vec<u8>,
    trunk: i64,
    delete: usize,
    prefix: Vec<u8>,
}

struct Table {
    ten: bool,
    limits: Limits,
    routes: Vec<Route>,
}

/// The most digits of a number.
const MOST_DIGITS: usize = 10;

/// What came of an attempt.
#[derive(Clone, Copy)]
enum Outcome {
    Dialled,
    Mutilated,
    TimedOut,
    Abandoned,
}

/// An attempt, as far as a line has heard it.
#[derive(Clone, Copy, Default)]
enum Attempt {
    #[default]
    None,
    Heard,
    Ended(Outcome),
}

/// A line: how long its loop has been closed, or open; its attempt, with the digits of it; and its entries, the first
/// and the last of them.
#[derive(Clone, Copy)]
struct Line {
    ms: u64,
    number: [u8; MOST_DIGITS],
    count: u8,
    pulses: u8,
    bad: bool,
    make: bool,
    closed: bool,
    attempt: Attempt,
    first: u32,
    last: u32,
}

/// No entry.
const NONE: u32 = u32::MAX;

const IDLE: Line = Line {
    ms: 0,
    number: [0; MOST_DIGITS],
    count: 0,
    pulses: 0,
    bad: false,
    make: false,
    closed: false,
    attempt: Attempt::None,
    first: NONE,
    last: NONE,
};

/// An attempt that has ended, and the next one of its line.
struct Entry {
    number: [u8; MOST_DIGITS],
    count: u8,
    outcome: Outcome,
    next: u32,
}

fn digits(text: &str) -> Vec<u8> {
    text.bytes().map(|byte| byte - b'0').collect()
}

fn table_of(text: &str) -> Result<Table, Fault> {
    let table: toml::Value = text.parse()?;
    let limit = |name, standard| {
        let value = table.get("limits").and_then(|limits| limits.get(name));
        value
            .and_then(toml::Value::as_integer)
            .map_or(standard, |ms| ms as u64)
    };
    let limits = Limits {
        pulse_min: limit("pulse_min", 20),
        pulse_max: limit("pulse_max", 119),
        make_min: limit("make_min", 15),
        pause: limit("pause", 180),
        release: limit("release", 300),
        timeout: limit("timeout", 20_000),
    };
    let mut routes = Vec::new();
    for route in table
        .get("route")
        .and_then(toml::Value::as_array)
        .into_iter()
        .flatten()
    {
        let number = |name| route.get(name).and_then(toml::Value::as_integer);
        let text = |name| route.get(name).and_then(toml::Value::as_str);
        routes.push(Route {
            code: digits(text("code").ok_or("a route without a code")?),
            trunk: number("trunk").ok_or("a route without a trunk group")?,
            delete: number("delete").unwrap_or(0) as usize,
            prefix: digits(text("prefix").unwrap_or("")),
        });
    }
    routes.sort_by(|a, b| a.code.cmp(&b.code));
    let ten = table.get("plan").and_then(toml::Value::as_integer) == Some(10);
    Ok(Table {
        ten,
        limits,
        routes,
    })
}

fn number(field: &[u8]) -> usize {
    field
        .iter()
        .fold(0, |number, byte| number * 10 + usize::from(byte - b'0'))
}

/// How many digits a number has that begins so, once that is known.
fn length(ten: bool, number: &[u8]) -> Option<usize> {
    match number {
        [0, ..] => Some(1),
        [2..=9, 1, 1, ..] => Some(3),
        [2..=9, 0 | 1, _, ..] if ten => Some(10),
        [_, _, _, ..] => Some(7),
        _ => None,
    }
}

fn route<'a>(table: &'a Table, number: &[u8]) -> Option<&'a Route> {
    let with = |code: &[u8]| {
        table
            .routes
            .binary_search_by(|route| route.code.as_slice().cmp(code))
            .ok()
    };
    let lengths = [6, 3, 1]
        .into_iter()
        .filter(|length| *length <= number.len());
    lengths
        .filter_map(|length| with(&number[..length]))
        .map(|place| &table.routes[place])
        .next()
}

/// The two tones of a digit: its two elements of five, by their weights 0, 1, 2, 4 and 7.
const TONES: [&str; 10] = [
    "1300+1500",
    "700+900",
    "700+1100",
    "900+1100",
    "700+1300",
    "900+1300",
    "1100+1300",
    "700+1500",
    "900+1500",
    "1100+1500",
];

impl Line {
    fn digits(&self) -> &[u8] {
        &self.number[..usize::from(self.count)]
    }

    /// Hears a make, which is the first of the attempt where it has no pulses and no digits yet.
    fn hear_make(&mut self, table: &Table, first: bool) {
        let limits = &table.limits;
        self.bad |= !first && self.ms < limits.make_min;
        if !first && self.ms >= limits.pause {
            if self.bad || self.pulses > 10 {
                self.attempt = Attempt::Ended(Outcome::Mutilated);
                return;
            }
            self.number[usize::from(self.count)] = self.pulses % 10;
            self.count += 1;
            self.pulses = 0;
            if length(table.ten, self.digits()) == Some(usize::from(self.count)) {
                self.attempt = Attempt::Ended(Outcome::Dialled);
                return;
            }
        }
        if self.ms >= limits.timeout {
            self.attempt = Attempt::Ended(Outcome::TimedOut);
        }
    }

    fn hear_break(&mut self, limits: &Limits) {
        self.bad |= self.ms < limits.pulse_min || self.ms > limits.pulse_max;
        self.pulses = (self.pulses + 1).min(11);
    }

    /// Puts what came of the attempt after the entries of the line, if there is one.
    fn end_attempt(&mut self, entries: &mut Vec<Entry>) {
        let outcome = match self.attempt {
            Attempt::None => return,
            Attempt::Heard => Outcome::Abandoned,
            Attempt::Ended(outcome) => outcome,
        };
        let place = entries.len() as u32;
        entries.push(Entry {
            number: self.number,
            count: self.count,
            outcome,
            next: NONE,
        });
        match self.last {
            NONE => self.first = place,
            last => entries[last as usize].next = place,
        }
        self.last = place;
        self.attempt = Attempt::None;
    }

    /// Hears the run that has ended.
    fn end_run(&mut self, table: &Table, entries: &mut Vec<Entry>) {
        if self.ms == 0 {
            return;
        }
        if !self.make && self.ms >= table.limits.release {
            self.end_attempt(entries);
            return;
        }
        match self.attempt {
            Attempt::None if self.make => {
                self.attempt = Attempt::Heard;
                (self.count, self.pulses, self.bad) = (0, 0, false);
                self.hear_make(table, true);
            }
            Attempt::None | Attempt::Ended(_) => {}
            Attempt::Heard if self.make => self.hear_make(table, false),
            Attempt::Heard => self.hear_break(&table.limits),
        }
    }
}

/// The records of a text, as the machine of the crate `csv` cuts them.
struct Records<'a> {
    reader: csv_core::Reader,
    left: &'a [u8],
    text: [u8; MOST_RECORD_BYTES],
    ends: [usize; MOST_FIELDS],
}

impl<'a> Records<'a> {
    fn new(text: &'a [u8]) -> Records<'a> {
        Records {
            reader: csv_core::Reader::new(),
            left: text,
            text: [0; MOST_RECORD_BYTES],
            ends: [0; MOST_FIELDS],
        }
    }

    /// The three fields of the next record, if there is one.
    fn next(&mut self) -> Result<Option<[&[u8]; 3]>, Fault> {
        loop {
            let (result, read, _, fields) =
                self.reader
                    .read_record(self.left, &mut self.text, &mut self.ends);
            self.left = &self.left[read..];
            match result {
                // what is left is empty then, and the next call ends the last record
                ReadRecordResult::InputEmpty => {}
                ReadRecordResult::Record if fields == 3 => break,
                ReadRecordResult::End => return Ok(None),
                _ => return Err("a record that has not three short fields".into()),
            }
        }
        let [first, second, third, _] = self.ends;
        Ok(Some([
            &self.text[..first],
            &self.text[first..second],
            &self.text[second..third],
        ]))
    }
}

/// Hears the records of all lines; returns the lines and the entries.
fn hear(table: &Table, rows: &[u8]) -> Result<(Vec<Line>, Vec<Entry>), Fault> {
    let mut lines = vec![IDLE; LINES];
    let mut entries = Vec::new();
    let mut records = Records::new(rows);
    records.next()?;
    while let Some([name, state, ms]) = records.next()? {
        let line = lines.get_mut(number(name)).ok_or("a wrong line")?;
        let (make, ms) = (state == b"M", number(ms) as u64);
        line.closed |= state == b"C";
        if ms == 0 || line.closed {
            continue;
        }
        if line.make != make {
            line.end_run(table, &mut entries);
            line.make = make;
            line.ms = 0;
        }
        line.ms += ms;
    }
    for line in &mut lines {
        line.end_run(table, &mut entries);
        line.end_attempt(&mut entries);
    }
    Ok((lines, entries))
}

impl Entry {
    /// Puts the entry on the page, without its line and its number; returns whether it is keyed.
    fn print(&self, table: &Table, page: &mut Vec<u8>) -> io::Result<bool> {
        let number = &self.number[..usize::from(self.count)];
        let reason = match self.outcome {
            Outcome::Dialled => match route(table, number) {
                Some(route) => {
                    write!(page, "KEYED {:04} KP:1100+1700", route.trunk)?;
                    for digit in route.prefix.iter().chain(&number[route.delete..]) {
                        page.extend_from_slice(&[b' ', b'0' + digit, b':']);
                        page.extend_from_slice(TONES[usize::from(*digit)].as_bytes());
                    }
                    page.extend_from_slice(b" ST:1500+1700\n");
                    return Ok(true);
                }
                None => "UNKNOWN",
            },
            Outcome::Mutilated => "MUTILATED",
            Outcome::TimedOut => "TIMEDOUT",
            Outcome::Abandoned => "ABANDONED",
        };
        writeln!(page, "REFUSED {reason} {}", self.count)?;
        Ok(false)
    }
}

fn page_of(table: &Table, lines: &[Line], entries: &[Entry]) -> io::Result<Vec<u8>> {
    let mut page = Vec::new();
    let (mut keyed, mut refused) = (0, 0);
    for (name, line) in lines.iter().enumerate() {
        let (mut place, mut count) = (line.first, 0);
        while let Some(entry) = entries.get(place as usize) {
            count += 1;
            write!(page, "{name:04} {count} ")?;
            if entry.print(table, &mut page)? {
                keyed += 1;
            } else {
                refused += 1;
            }
            place = entry.next;
        }
    }
    writeln!(page, "KEYED {keyed} REFUSED {refused}")?;
    Ok(page)
}

fn main() -> Result<(), Fault> {
    let mut deck = Vec::new();
    io::stdin().read_to_end(&mut deck)?;
    let cut = deck
        .windows(MARK.len())
        .position(|bytes| bytes == MARK)
        .ok_or("a deck without a cut")?;
    let table = table_of(std::str::from_utf8(&deck[..cut + 1])?)?;
    let (lines, entries) = hear(&table, &deck[cut + MARK.len()..])?;
    io::stdout().write_all(&page_of(&table, &lines, &entries)?)?;
    Ok(())
}
