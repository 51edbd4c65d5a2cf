// `slots` as a plain Rust program, with nothing proved: a script on standard input, its answers on standard output.
// It is written from docs/ and apart from the library; tools/bench times it beside `slots`.
//
// It runs glyph numbers, the majority rule, a line of 64 items and a page store. A save in the page never fails, so
// nobody is ever down, and the refusals 3 and 12 do not arise.
use std::fmt;
use std::io::{self, BufRead, BufReader, BufWriter, Write};

const TOP_BALLOT: u32 = 16_777_214;
const TOP_GLYPH: u64 = 65_534;
const GLYPHS: u8 = 1;
const EDITION: u8 = 1;
const MOST: usize = 7;
const ROOM: usize = 64;
const HEADER: usize = 4;
const ENTRY: usize = 12;
const FRAME: usize = HEADER + ENTRY * MOST;
const LONGEST_LINE: usize = 80;
const BLOCK: usize = 65_536;

/// Why a step is refused, and where; the place is that of a byte in a frame, and 0 elsewhere.
#[derive(Clone, Copy)]
struct Fault {
    number: u8,
    #[allow(dead_code)]
    place: usize,
}

fn no<T>(number: u8) -> Result<T, Fault> {
    Err(Fault { number, place: 0 })
}

fn ill_formed<T>(place: usize) -> Result<T, Fault> {
    Err(Fault { number: 10, place })
}

fn not_for_us<T>(place: usize) -> Result<T, Fault> {
    Err(Fault { number: 11, place })
}

/// A promise, a vote and a code; -1 is no ballot.
#[derive(Clone, Copy, PartialEq, Eq)]
struct Entry {
    promise: i32,
    vote: i32,
    code: u64,
}

const NONE: Entry = Entry { promise: -1, vote: -1, code: 0 };

type Row = [Entry; MOST];

impl Entry {
    fn to_bytes(self) -> [u8; ENTRY] {
        let mut bytes = [0; ENTRY];
        bytes[0..3].copy_from_slice(&(self.promise + 1).to_be_bytes()[1..]);
        bytes[3..6].copy_from_slice(&(self.vote + 1).to_be_bytes()[1..]);
        bytes[6..12].copy_from_slice(&self.code.to_be_bytes()[2..]);
        bytes
    }

    fn from_bytes(b: &[u8]) -> Entry {
        Entry {
            promise: i32::from_be_bytes([0, b[0], b[1], b[2]]) - 1,
            vote: i32::from_be_bytes([0, b[3], b[4], b[5]]) - 1,
            code: u64::from_be_bytes([0, 0, b[6], b[7], b[8], b[9], b[10], b[11]]),
        }
    }
}

fn has(set: u8, q: usize) -> bool {
    q < 8 && set >> q & 1 == 1
}

fn all_but(n: usize, p: usize) -> u8 {
    ((1u8 << n) - 1) & !(1 << p)
}

#[derive(Clone, Copy)]
enum Sort {
    Prepare,
    Accept,
    Ack,
}

struct Header {
    sort: Sort,
    n: usize,
    sender: usize,
    to: u8,
    cell: usize,
}

fn write_frame(header: &Header, row: &Row, out: &mut [u8; FRAME]) -> usize {
    out[0] = (header.sort as u8) << 6 | EDITION << 4 | header.n as u8;
    out[1] = (header.sender as u8) << 4 | GLYPHS;
    out[2] = header.to;
    out[3] = header.cell as u8;
    for (bytes, entry) in out[HEADER..].chunks_exact_mut(ENTRY).zip(&row[..header.n]) {
        bytes.copy_from_slice(&entry.to_bytes());
    }
    HEADER + ENTRY * header.n
}

/// Reads a frame for participant `q` of a register of `n` participants and `cells` cells; the first check that fails
/// is the fault.
fn read_frame(bytes: &[u8], n: usize, cells: usize, q: usize) -> Result<(Header, Row), Fault> {
    let &[first, second, to, cell, ref entries @ ..] = bytes else {
        return ill_formed(bytes.len());
    };
    let sort = match first >> 6 {
        0 => Sort::Prepare,
        1 => Sort::Accept,
        2 => Sort::Ack,
        _ => return ill_formed(0),
    };
    let its_n = usize::from(first & 15);
    if first >> 4 & 3 != EDITION || !(2..=MOST).contains(&its_n) {
        return ill_formed(0);
    }
    if entries.len() != ENTRY * its_n {
        return ill_formed(bytes.len());
    }
    let (sender, kind) = (usize::from(second >> 4), second & 15);
    if sender >= its_n {
        return ill_formed(1);
    }
    let others = all_but(its_n, sender);
    let addressed = match sort {
        Sort::Prepare | Sort::Accept => to == others,
        Sort::Ack => to.count_ones() == 1 && to & !others == 0,
    };
    if !addressed {
        return ill_formed(2);
    }
    let row = read_row(entries, kind)?;
    if its_n != n {
        return not_for_us(0);
    }
    if kind != GLYPHS {
        return not_for_us(1);
    }
    if !has(to, q) {
        return not_for_us(2);
    }
    if usize::from(cell) >= cells {
        return not_for_us(3);
    }
    Ok((Header { sort, n, sender, to, cell: usize::from(cell) }, row))
}

fn read_row(entries: &[u8], kind: u8) -> Result<Row, Fault> {
    let mut row = [NONE; MOST];
    for (i, bytes) in entries.chunks_exact(ENTRY).enumerate() {
        let (at, entry) = (HEADER + ENTRY * i, Entry::from_bytes(bytes));
        if entry.vote > entry.promise {
            return ill_formed(at + 3);
        }
        let valued = if entry.vote < 0 { entry.code == 0 } else { kind != GLYPHS || entry.code <= TOP_GLYPH };
        if !valued {
            return ill_formed(at + 6);
        }
        row[i] = entry;
    }
    Ok(row)
}

/// A frame on its way to one addressee.
struct Item {
    to: usize,
    len: usize,
    bytes: [u8; FRAME],
}

/// The items that wait, in order. It never loses one, and has room for 64.
struct Line {
    items: Vec<Item>,
}

impl Line {
    fn new() -> Line {
        Line { items: Vec::with_capacity(ROOM) }
    }

    fn put(&mut self, frame: &[u8], to: u8) -> usize {
        let before = self.items.len();
        for q in (0..8).filter(|&q| has(to, q)).take(ROOM - before) {
            let mut bytes = [0; FRAME];
            bytes[..frame.len()].copy_from_slice(frame);
            self.items.push(Item { to: q, len: frame.len(), bytes });
        }
        self.items.len() - before
    }

    fn take(&mut self, q: usize, k: usize, out: &mut [u8; FRAME]) -> Option<usize> {
        let (at, _) = self.items.iter().enumerate().filter(|(_, item)| item.to == q).nth(k)?;
        let item = self.items.remove(at);
        out[..item.len].copy_from_slice(&item.bytes[..item.len]);
        Some(item.len)
    }
}

/// The entries that survive a crash, as bytes.
struct Page {
    bytes: Vec<u8>,
}

impl Page {
    fn new(places: usize) -> Page {
        Page { bytes: vec![0; ENTRY * places] }
    }

    fn save(&mut self, place: usize, entry: Entry) {
        self.bytes[ENTRY * place..][..ENTRY].copy_from_slice(&entry.to_bytes());
    }
}

enum Command {
    New { n: usize, cells: usize },
    Prepare { p: usize, c: usize, b: u32 },
    Accept { p: usize, c: usize, v: u64 },
    Abandon { p: usize, c: usize },
    Deliver { q: usize, k: usize },
    Read { p: usize, c: usize },
}

impl Command {
    fn read(line: &[u8]) -> Option<Command> {
        if line.len() > LONGEST_LINE {
            return None;
        }
        let mut words = line.split(|&byte| byte == b' ');
        let name = words.next()?;
        let mut next = || number(words.next()?);
        let command = match name {
            b"new" => Command::New { n: next()? as usize, cells: next()? as usize },
            b"prepare" => Command::Prepare { p: next()? as usize, c: next()? as usize, b: next()? },
            b"accept" => Command::Accept { p: next()? as usize, c: next()? as usize, v: next()?.into() },
            b"abandon" => Command::Abandon { p: next()? as usize, c: next()? as usize },
            b"deliver" => Command::Deliver { q: next()? as usize, k: next()? as usize },
            b"read" => Command::Read { p: next()? as usize, c: next()? as usize },
            _ => return None,
        };
        words.next().is_none().then_some(command)
    }
}

fn number(word: &[u8]) -> Option<u32> {
    if !(1..=8).contains(&word.len()) || !word.iter().all(u8::is_ascii_digit) {
        return None;
    }
    Some(word.iter().fold(0, |sum, digit| 10 * sum + u32::from(digit - b'0')))
}

enum Answer {
    Bad,
    No(u8),
    Done,
    Kept(usize),
    Carried(u64, usize),
    Chosen(i32, u64),
    Open,
}

impl fmt::Display for Answer {
    fn fmt(&self, f: &mut fmt::Formatter) -> fmt::Result {
        match self {
            Answer::Bad => f.write_str("bad"),
            Answer::No(number) => write!(f, "no {number}"),
            Answer::Done => f.write_str("ok"),
            Answer::Kept(kept) => write!(f, "ok {kept}"),
            Answer::Carried(value, kept) => write!(f, "ok {value} {kept}"),
            Answer::Chosen(ballot, value) => write!(f, "ok {ballot} {value}"),
            Answer::Open => f.write_str("open"),
        }
    }
}

/// A register with its rows, page, line and the rounds held.
struct Desk {
    n: usize,
    cells: usize,
    rows: Vec<Row>,
    page: Page,
    line: Line,
    held: Vec<Option<i32>>,
    buffer: [u8; FRAME],
}

impl Desk {
    fn new(n: usize, cells: usize) -> Result<Desk, Fault> {
        if !(2..=MOST).contains(&n) || !(1..=64).contains(&cells) {
            return no(1);
        }
        Ok(Desk {
            n,
            cells,
            rows: vec![[NONE; MOST]; n * cells],
            page: Page::new(n * cells),
            line: Line::new(),
            held: vec![None; n * cells],
            buffer: [0; FRAME],
        })
    }

    fn run(&mut self, command: Command) -> Result<Answer, Fault> {
        match command {
            Command::New { .. } => Ok(Answer::Bad),
            Command::Prepare { p, c, b } => self.prepare(p, c, b),
            Command::Accept { p, c, v } => self.accept(p, c, v),
            Command::Abandon { p, c } => self.abandon(p, c),
            Command::Deliver { q, k } => self.deliver(q, k),
            Command::Read { p, c } => self.read_out(p, c),
        }
    }

    fn place(&self, p: usize, c: usize) -> Option<usize> {
        (p < self.n && c < self.cells).then_some(p * self.cells + c)
    }

    fn suffice(&self, members: usize) -> bool {
        2 * members > self.n
    }

    fn send(&mut self, sort: Sort, sender: usize, cell: usize, to: u8) -> usize {
        let header = Header { sort, n: self.n, sender, to, cell };
        let len = write_frame(&header, &self.rows[sender * self.cells + cell], &mut self.buffer);
        self.line.put(&self.buffer[..len], to)
    }

    fn prepare(&mut self, p: usize, c: usize, b: u32) -> Result<Answer, Fault> {
        let Some(place) = self.place(p, c) else {
            return no(2);
        };
        if b > TOP_BALLOT || b as usize % self.n != p {
            return no(4);
        }
        let b = b as i32;
        let own = &mut self.rows[place][p];
        if b <= own.promise {
            return no(5);
        }
        own.promise = b;
        self.page.save(place, *own);
        self.held[place] = Some(b);
        Ok(Answer::Kept(self.send(Sort::Prepare, p, c, all_but(self.n, p))))
    }

    fn accept(&mut self, p: usize, c: usize, v: u64) -> Result<Answer, Fault> {
        let Some((place, b)) = self.place(p, c).and_then(|place| Some((place, self.held[place]?))) else {
            return no(0);
        };
        if v > TOP_GLYPH {
            return no(13);
        }
        let row = &self.rows[place][..self.n];
        if row[p].promise != b {
            return no(6);
        }
        if row[p].vote == b {
            return no(7);
        }
        if !self.suffice(row.iter().filter(|entry| entry.promise == b).count()) {
            return no(8);
        }
        let (_, code) = row.iter().fold((-1, v), |best, entry| {
            if entry.vote > best.0 { (entry.vote, entry.code) } else { best }
        });
        let own = Entry { promise: b, vote: b, code };
        self.rows[place][p] = own;
        self.page.save(place, own);
        self.held[place] = None;
        Ok(Answer::Carried(code, self.send(Sort::Accept, p, c, all_but(self.n, p))))
    }

    fn abandon(&mut self, p: usize, c: usize) -> Result<Answer, Fault> {
        match self.place(p, c).and_then(|place| self.held[place].take()) {
            Some(_) => Ok(Answer::Done),
            None => no(0),
        }
    }

    fn deliver(&mut self, q: usize, k: usize) -> Result<Answer, Fault> {
        if q >= self.n {
            return no(2);
        }
        let Some(len) = self.line.take(q, k, &mut self.buffer) else {
            return no(9);
        };
        let (header, row) = read_frame(&self.buffer[..len], self.n, self.cells, q)?;
        Ok(Answer::Kept(self.receive(q, &header, &row)))
    }

    fn receive(&mut self, q: usize, header: &Header, frame: &Row) -> usize {
        let (s, t) = (frame[header.sender], frame[q]);
        let place = q * self.cells + header.cell;
        let row = &mut self.rows[place];

        let view = &mut row[header.sender];
        view.promise = view.promise.max(s.promise);
        if s.vote > view.vote {
            (view.vote, view.code) = (s.vote, s.code);
        }

        let before = row[q];
        let mut own = before;
        own.promise = before.promise.max(s.promise);
        if before.promise <= s.vote {
            (own.vote, own.code) = (s.vote, s.code);
        }
        row[q] = own;
        if own != before {
            self.page.save(place, own);
        }

        if t.promise < own.promise || t.vote < own.vote {
            self.send(Sort::Ack, q, header.cell, 1 << header.sender)
        } else {
            0
        }
    }

    fn read_out(&self, p: usize, c: usize) -> Result<Answer, Fault> {
        let Some(place) = self.place(p, c) else {
            return no(2);
        };
        let row = &self.rows[place][..self.n];
        let mut chosen = NONE;
        for entry in row.iter().filter(|entry| entry.vote >= 0) {
            let voters = row.iter().filter(|other| other.vote == entry.vote).count();
            if entry.vote > chosen.vote && self.suffice(voters) {
                chosen = *entry;
            }
        }
        Ok(if chosen.vote < 0 { Answer::Open } else { Answer::Chosen(chosen.vote, chosen.code) })
    }
}

fn answer(session: &mut Option<Desk>, line: &[u8]) -> Answer {
    let taken = match (Command::read(line), session.as_mut()) {
        (Some(Command::New { n, cells }), None) => Desk::new(n, cells).map(|desk| {
            *session = Some(desk);
            Answer::Done
        }),
        (Some(command), Some(desk)) => desk.run(command),
        _ => Ok(Answer::Bad),
    };
    taken.unwrap_or_else(|fault| Answer::No(fault.number))
}

fn main() -> io::Result<()> {
    let mut input = BufReader::with_capacity(BLOCK, io::stdin().lock());
    let mut out = BufWriter::with_capacity(BLOCK, io::stdout().lock());
    let mut session = None;
    let mut line = Vec::new();
    while input.read_until(b'\n', &mut line)? > 0 {
        let text = line.strip_suffix(b"\n").unwrap_or(&line);
        writeln!(out, "{}", answer(&mut session, text))?;
        line.clear();
    }
    out.flush()
}
