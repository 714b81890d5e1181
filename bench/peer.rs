//! The peer of the drill: the same rules in plain Rust, written for speed and not proved. It reads and writes byte by byte, uses no
//! formatting machinery, and keeps what it can in fixed arrays. It takes well-formed sheets alone, and promises nothing of any other.
use std::collections::VecDeque;
use std::io::{Read, Write};

const BYTES: usize = 65_536;
const PLACES: usize = 1024;
const WRITE: u8 = 1;
const READ: u8 = 2;
const TELL: u8 = 3;

#[derive(Clone, Copy, Default)]
struct Message {
    kind: u8,
    replica: u8,
    client: u8,
    marks: u8,
    round: u32,
    version: u32,
    value: i32,
    previous: i32,
    note: u32,
}

#[derive(Clone, Copy)]
struct Replica {
    out: bool,
    marks: u8,
    version: u32,
    value: i32,
    previous: i32,
    note: u32,
    rounds: [u32; 65],
}

#[derive(Clone, Copy, PartialEq)]
enum Phase {
    Idle,
    Writing,
    Asking,
    Due,
    Telling,
}

#[derive(Clone, Copy)]
struct Client {
    out: bool,
    phase: Phase,
    round: u32,
    version: u32,
    value: i32,
    previous: i32,
    /// the replicas that have been counted in this round, a bit for each
    counted: u32,
    count: u32,
    readings: [Message; 32],
}

#[derive(Clone, Copy)]
enum Order {
    Write(i32),
    Read(u32),
    Tell(u32),
    Carry,
    ReplicaOut(u32),
    ClientOut(u32),
}

/// code, who, version, value, rounds
type Answer = (u32, u32, u32, i32, u32);

struct Register {
    replicas: u32,
    tolerated: u32,
    groups: u32,
    readers: u32,
    outs: u32,
    rows: Vec<Replica>,
    clients: Vec<Client>,
}

impl Register {
    fn open(replicas: u32, tolerated: u32, groups: u32, readers: u32, initial: i32) -> Register {
        let row = Replica {
            out: false,
            marks: 0,
            version: 0,
            value: initial,
            previous: initial,
            note: 0,
            rounds: [0; 65],
        };
        let client = Client {
            out: false,
            phase: Phase::Idle,
            round: 0,
            version: 0,
            value: initial,
            previous: initial,
            counted: 0,
            count: 0,
            readings: [Message::default(); 32],
        };
        Register {
            replicas,
            tolerated,
            groups,
            readers,
            outs: 0,
            rows: vec![row; replicas as usize],
            clients: vec![client; readers as usize + 1],
        }
    }

    fn mark(&self, client: u32) -> u8 {
        if client == 0 {
            1
        } else {
            1 << (1 + client % self.groups)
        }
    }

    /// One round more of the client: a message to each of the first `count` replicas.
    fn send(
        &mut self,
        queue: &mut VecDeque<Message>,
        kind: u8,
        client: u32,
        phase: Phase,
        count: u32,
    ) {
        let marks = self.mark(client);
        let c = &mut self.clients[client as usize];
        c.round += 1;
        c.phase = phase;
        c.counted = 0;
        c.count = 0;
        let (round, version, value, previous) = (c.round, c.version, c.value, c.previous);
        for replica in 0..count {
            queue.push_back(Message {
                kind,
                replica: replica as u8,
                client: client as u8,
                marks,
                round,
                version,
                value,
                previous,
                note: 0,
            });
        }
    }

    fn order(&mut self, queue: &mut VecDeque<Message>, order: Order) -> Answer {
        let free = (PLACES - queue.len()) as u32;
        match order {
            Order::Write(value) => {
                let c = &mut self.clients[0];
                let code = if c.out {
                    12
                } else if c.phase != Phase::Idle {
                    13
                } else if !(-9_999_999..=9_999_999).contains(&value) {
                    15
                } else if c.round >= 2_000_000 {
                    16
                } else if free < self.replicas {
                    17
                } else {
                    100
                };
                if code == 100 {
                    c.version = c.round + 1;
                    c.previous = c.value;
                    c.value = value;
                    self.send(queue, WRITE, 0, Phase::Writing, self.replicas);
                }
                (code, 0, 0, 0, 0)
            }
            Order::Read(reader) => {
                if reader == 0 || reader > self.readers {
                    return (11, reader, 0, 0, 0);
                }
                let c = &self.clients[reader as usize];
                let code = if c.out {
                    12
                } else if c.phase != Phase::Idle {
                    13
                } else if c.round >= 2_000_000 {
                    16
                } else if free < self.replicas {
                    17
                } else {
                    100
                };
                if code == 100 {
                    self.send(queue, READ, reader, Phase::Asking, self.replicas);
                }
                (code, reader, 0, 0, 0)
            }
            Order::Tell(reader) => {
                if reader == 0 || reader > self.readers {
                    return (11, reader, 0, 0, 0);
                }
                let told = 3 * self.tolerated + 1;
                let c = &self.clients[reader as usize];
                let code = if c.out {
                    12
                } else if c.phase != Phase::Due {
                    14
                } else if free < told {
                    17
                } else {
                    100
                };
                if code == 100 {
                    self.send(queue, TELL, reader, Phase::Telling, told);
                }
                (code, reader, 0, 0, 0)
            }
            Order::ReplicaOut(replica) => {
                let code = if replica >= self.replicas {
                    11
                } else if self.rows[replica as usize].out {
                    19
                } else if self.outs >= self.tolerated {
                    20
                } else {
                    100
                };
                if code == 100 {
                    self.rows[replica as usize].out = true;
                    self.outs += 1;
                }
                (code, replica, 0, 0, 0)
            }
            Order::ClientOut(client) => {
                let code = if client > self.readers {
                    11
                } else if self.clients[client as usize].out {
                    12
                } else {
                    100
                };
                if code == 100 {
                    self.clients[client as usize].out = true;
                }
                (code, client, 0, 0, 0)
            }
            Order::Carry => match queue.pop_front() {
                None => (18, 0, 0, 0, 0),
                Some(m) => self.handle(queue, m),
            },
        }
    }

    fn handle(&mut self, queue: &mut VecDeque<Message>, m: Message) -> Answer {
        let who = u32::from(m.client);
        if m.kind < 1 || m.kind > 6 || u32::from(m.replica) >= self.replicas || who > self.readers {
            return (107, 0, 0, 0, 0);
        }
        if m.kind > TELL {
            return self.hear(m, who);
        }
        let r = &mut self.rows[usize::from(m.replica)];
        if r.out {
            return (102, who, 0, 0, 0);
        }
        let last = &mut r.rounds[usize::from(m.client)];
        if m.round <= *last {
            return (103, who, 0, 0, 0);
        }
        *last = m.round;
        if m.version > r.version {
            r.version = m.version;
            r.value = m.value;
            r.previous = m.previous;
            r.marks = m.marks;
        } else {
            r.marks |= m.marks;
        }
        if m.kind == TELL && m.version > r.note {
            r.note = m.version;
        }
        queue.push_back(Message {
            kind: m.kind + 3,
            replica: m.replica,
            client: m.client,
            marks: r.marks,
            round: m.round,
            version: r.version,
            value: r.value,
            previous: r.previous,
            note: r.note,
        });
        (101, who, 0, 0, 0)
    }

    fn hear(&mut self, m: Message, who: u32) -> Answer {
        let (replicas, tolerated) = (self.replicas, self.tolerated);
        let c = &mut self.clients[usize::from(m.client)];
        if c.out {
            return (102, who, 0, 0, 0);
        }
        let awaited = match c.phase {
            Phase::Writing => WRITE + 3,
            Phase::Asking => READ + 3,
            Phase::Telling => TELL + 3,
            _ => 0,
        };
        let bit = 1 << m.replica;
        if m.round != c.round || m.kind != awaited || c.counted & bit != 0 {
            return (103, who, 0, 0, 0);
        }
        c.counted |= bit;
        if m.kind == READ + 3 {
            c.readings[c.count as usize] = m;
        }
        c.count += 1;
        let needed = if m.kind == TELL + 3 {
            2 * tolerated + 1
        } else {
            replicas - tolerated
        };
        if c.count < needed {
            return (104, who, 0, 0, 0);
        }
        match m.kind - 3 {
            WRITE => {
                c.phase = Phase::Idle;
                (105, who, c.version, c.value, 1)
            }
            TELL => {
                c.phase = Phase::Idle;
                (105, who, c.version, c.value, 2)
            }
            _ => self.decide(who),
        }
    }

    fn decide(&mut self, who: u32) -> Answer {
        let c = &self.clients[who as usize];
        let readings = &c.readings[..c.count as usize];
        let h = readings.iter().map(|m| m.version).max().unwrap_or(0);
        let mut lowest = Message {
            replica: 255,
            ..Message::default()
        };
        let mut noted = 0;
        for m in readings {
            if m.version == h && m.replica < lowest.replica {
                lowest = *m;
            }
            noted += u32::from(m.note == h);
        }
        let fast = h == 0 || noted > self.tolerated || self.agrees(readings, h, 1);
        let due = !fast && (noted >= 1 || self.agrees(readings, h, 0));
        let c = &mut self.clients[who as usize];
        c.version = h;
        c.value = lowest.value;
        c.previous = lowest.previous;
        if due {
            c.phase = Phase::Due;
            return (106, who, 0, 0, 0);
        }
        c.phase = Phase::Idle;
        if fast {
            (105, who, h, c.value, 1)
        } else {
            (105, who, h - 1, c.previous, 1)
        }
    }

    /// Is there an a from 1 to V + 1, and at least S - a t readings at h with at least a + more marks common to all of them?
    fn agrees(&self, readings: &[Message], h: u32, more: u32) -> bool {
        let mut used = 0u8;
        for m in readings {
            if m.version == h {
                used |= m.marks;
            }
        }
        let mut mask = used;
        while mask != 0 {
            let a = mask.count_ones().saturating_sub(more).min(self.groups + 1);
            if a >= 1 {
                let agreeing = readings
                    .iter()
                    .filter(|m| m.version == h && m.marks & mask == mask)
                    .count() as u32;
                if agreeing + a * self.tolerated >= self.replicas {
                    return true;
                }
            }
            mask = (mask - 1) & used;
        }
        false
    }
}

/// A number and the byte behind it.
fn number(out: &mut Vec<u8>, n: u32, behind: u8) {
    if n < 10 {
        out.extend_from_slice(&[b'0' + n as u8, behind]);
        return;
    }
    let mut digits = [0u8; 12];
    let mut i = 11;
    digits[i] = behind;
    let mut n = n;
    while n > 0 {
        i -= 1;
        digits[i] = b'0' + (n % 10) as u8;
        n /= 10;
    }
    out.extend_from_slice(&digits[i..]);
}

fn line(out: &mut Vec<u8>, (code, who, version, value, rounds): Answer) {
    // The drill puts down such a line whole. Built so with `--cfg whole_lines`, to show what that wins here.
    let is_plain = version == 0 && value == 0 && rounds == 0;
    if cfg!(whole_lines) && is_plain && (100..110).contains(&code) && who < 100 {
        let last = b'0' + (code - 100) as u8;
        let (ten, one) = (b'0' + (who / 10) as u8, b'0' + (who % 10) as u8);
        if who < 10 {
            out.extend_from_slice(&[
                b'1', b'0', last, b' ', one, b' ', b'0', b' ', b'0', b' ', b'0', b'\n',
            ]);
        } else {
            out.extend_from_slice(&[
                b'1', b'0', last, b' ', ten, one, b' ', b'0', b' ', b'0', b' ', b'0', b'\n',
            ]);
        }
        return;
    }
    number(out, code, b' ');
    number(out, who, b' ');
    number(out, version, b' ');
    if value < 0 {
        out.push(b'-');
    }
    number(out, value.unsigned_abs(), b' ');
    number(out, rounds, b'\n');
}

/// Where the reading of a sheet stands.
struct Cursor<'a> {
    sheet: &'a [u8],
    at: usize,
}

impl Cursor<'_> {
    fn fixed(&mut self, text: &[u8]) {
        assert!(self.sheet[self.at..].starts_with(text));
        self.at += text.len();
    }

    /// A number, perhaps with a minus sign, and the byte behind it.
    fn number(&mut self) -> i32 {
        let negative = self.sheet[self.at] == b'-';
        self.at += usize::from(negative);
        let mut n = 0i32;
        while self.sheet[self.at] > b' ' {
            let digit = self.sheet[self.at].wrapping_sub(b'0');
            assert!(digit < 10);
            n = n * 10 + i32::from(digit);
            self.at += 1;
        }
        self.at += 1;
        if negative {
            -n
        } else {
            n
        }
    }

    fn count(&mut self) -> u32 {
        self.number() as u32
    }

    fn order(&mut self) -> Order {
        let kind = self.sheet[self.at];
        self.at += 2;
        match kind {
            b'w' => Order::Write(self.number()),
            b'r' => Order::Read(self.count()),
            b't' => Order::Tell(self.count()),
            b'c' => Order::Carry,
            b'b' => Order::ReplicaOut(self.count()),
            b'x' => Order::ClientOut(self.count()),
            _ => panic!("no order of this kind"),
        }
    }
}

fn main() -> std::io::Result<()> {
    let mut sheet = Vec::with_capacity(BYTES);
    std::io::stdin()
        .take(BYTES as u64)
        .read_to_end(&mut sheet)?;
    let mut cursor = Cursor {
        sheet: &sheet,
        at: 0,
    };
    cursor.fixed(b"settings 5\n");
    let (replicas, tolerated, groups, readers) = (
        cursor.count(),
        cursor.count(),
        cursor.count(),
        cursor.count(),
    );
    let initial = cursor.number();
    cursor.fixed(b"orders ");
    let n = cursor.count() as usize;
    let mut orders = Vec::with_capacity(n);
    for _ in 0..n {
        orders.push(cursor.order());
    }
    let mut register = Register::open(replicas, tolerated, groups, readers, initial);
    let mut queue = VecDeque::with_capacity(PLACES);
    let mut out = Vec::with_capacity(2 * BYTES);
    for order in &orders {
        let answer = register.order(&mut queue, *order);
        line(&mut out, answer);
    }
    std::io::stdout().write_all(&out)
}
