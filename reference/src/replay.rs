//! The program `replay`: a scenario in, what it gives out.

use crate::banks::{FIXED, SHEET, STORE};
use crate::bench::{bench_fixed, bench_sheet, write_bytes};
use crate::branch::quietly;
use crate::fault;
use crate::grammar::{line, without_return, Buffer, Field, Line, Statement};
use crate::grammar::{MOST_FIXED, MOST_ROOM, MOST_SHEET, MOST_STATES, MOST_STORE};
use crate::host::{encode, read_bank, Command};
use crate::module::{Fed, Half, Lent, Module, On, Position, ROOM, STATES};
use crate::receiver::Receiver;
use crate::refusal::{number_of, Refusal};

/// The microseconds between two bits of `bytes`.
const BIT: u64 = 100;

/// What a run of a scenario wrote, which line of the scenario each written line answers, and what it said on
/// standard error.
pub struct Run {
    pub out: Vec<u8>,
    pub causes: Vec<usize>,
    pub said: Vec<u8>,
}

/// Someone who looks on: told of each feed, and of each statement that is no edge, before it acts.
pub trait Watcher {
    fn feed(&mut self, module: &Module, times: &[u64], levels: &[u8], lent: &Lent);
    fn statement(&mut self, module: &Module, statement: &Statement, lent: &Lent);
}

/// Nobody.
impl Watcher for () {
    fn feed(&mut self, _: &Module, _: &[u64], _: &[u8], _: &Lent) {}
    fn statement(&mut self, _: &Module, _: &Statement, _: &Lent) {}
}

/// All that can be lent, and how much of each is.
struct Buffers {
    store: Vec<u8>,
    sheet: Vec<u8>,
    states: Vec<u8>,
    room: Vec<u8>,
    fixed: Vec<u8>,
    /// Of store, sheet, states, room and fixed sheet.
    lengths: [usize; 5],
}

impl Buffers {
    fn lent(&mut self) -> Lent<'_> {
        let [store, sheet, states, room, fixed] = self.lengths;
        Lent {
            states: &mut self.states[..states],
            store: &mut self.store[..store],
            sheet: &self.sheet[..sheet],
            fixed: &self.fixed[..fixed],
            room: &mut self.room[..room],
        }
    }
}

struct Replay<'w> {
    module: Module,
    buffers: Buffers,
    times: Vec<u64>,
    levels: Vec<u8>,
    /// The edges of the scenario before the present piece.
    before: usize,
    uneven: bool,
    out: Vec<u8>,
    causes: Vec<usize>,
    /// The line of the scenario that is being read.
    line: usize,
    watcher: &'w mut dyn Watcher,
}

/// Runs a scenario.
pub fn replay(scenario: &[u8]) -> Run {
    watched(scenario, &mut ())
}

/// Runs a scenario while someone looks on.
pub fn watched(scenario: &[u8], watcher: &mut dyn Watcher) -> Run {
    let mut replay = Replay::new(watcher);
    let mut said = Vec::new();
    for bytes in scenario.split_inclusive(|&byte| byte == b'\n') {
        replay.line += 1;
        if let Err(message) = replay.take_line(bytes) {
            said = format!("replay: line {}: {message}\n", replay.line).into_bytes();
            break;
        }
    }
    replay.feed_piece(false);
    Run { out: replay.out, causes: replay.causes, said }
}

impl Replay<'_> {
    fn new(watcher: &mut dyn Watcher) -> Replay<'_> {
        let (mut sheet, mut fixed) = (bench_sheet(), bench_fixed());
        sheet.resize(MOST_SHEET, 0);
        fixed.resize(MOST_FIXED, 0);
        let lengths = [STORE, SHEET, STATES, ROOM, FIXED];
        let (store, states, room) = (vec![0; MOST_STORE], vec![0; MOST_STATES], vec![0; MOST_ROOM]);
        Replay {
            module: Module::new(1),
            buffers: Buffers { store, sheet, states, room, fixed, lengths },
            times: Vec::new(),
            levels: Vec::new(),
            before: 0,
            uneven: false,
            out: Vec::new(),
            causes: Vec::new(),
            line: 0,
            watcher,
        }
    }

    /// Writes a line.
    fn write(&mut self, text: String) {
        self.write_with(text, &[]);
    }

    /// Writes a line that ends with bytes.
    fn write_with(&mut self, text: String, bytes: &[u8]) {
        self.out.extend(text.bytes());
        write_bytes(bytes, &mut self.out);
        self.out.push(b'\n');
        self.causes.push(self.line);
    }

    /// Does what a line says, or gives the message that stops the program.
    fn take_line(&mut self, bytes: &[u8]) -> Result<(), String> {
        let (bytes, closed) = match bytes {
            [line @ .., b'\n'] => (line, true),
            _ => (bytes, false),
        };
        let statement = match line(bytes, closed) {
            Line::Nothing => return Ok(()),
            Line::TooLong => return Err(fault::too_long()),
            Line::NotAStatement => return Err(fault::not_a_statement(quietly(|| without_return(bytes, closed)))),
            Line::Statement(statement) => statement,
        };
        match statement {
            Statement::Edge(time, level) => self.gather(time, level),
            Statement::Bytes(time, ref bytes) => {
                self.watcher.statement(&self.module, &statement, &self.buffers.lent());
                self.gather_bytes(time, bytes);
            }
            Statement::Size(..) | Statement::Cell(..) if self.before + self.times.len() > 0 => {
                return Err(fault::after_an_edge(quietly(|| without_return(bytes, closed))))
            }
            _ => {
                self.feed_piece(statement == Statement::Cut);
                self.watcher.statement(&self.module, &statement, &self.buffers.lent());
                self.perform(statement);
            }
        }
        Ok(())
    }

    /// An edge joins the piece.
    fn gather(&mut self, time: u64, level: u8) {
        self.times.push(time);
        self.levels.push(level);
    }

    /// Eight edges for each byte, bit 0 first, as if each stood on a line of its own.
    fn gather_bytes(&mut self, time: u64, bytes: &[u8]) {
        branch!("replay: bytes");
        let levels = bytes.iter().flat_map(|byte| (0..8).map(move |place| byte >> place & 1));
        for (place, level) in levels.enumerate() {
            self.gather(time + BIT * place as u64, level);
        }
    }

    /// Ends a piece: feeds it on from where the feed stopped until it is used up.
    fn feed_piece(&mut self, also_empty: bool) {
        let times = std::mem::take(&mut self.times);
        let levels = std::mem::take(&mut self.levels);
        if times.is_empty() && !also_empty {
            return;
        }
        let mut at = 0;
        loop {
            at = match self.feed(&times[at..], &levels[at..]) {
                Fed::Ended { taken } => at + taken,
                Fed::Acknowledged { taken, reply } => {
                    let edge = self.before + at + taken;
                    let time = times[at + taken - 1];
                    let reply = self.buffers.room[..reply].to_vec();
                    self.write_with(format!("ack {edge} {time}"), &reply);
                    at + taken
                }
                Fed::BadEdge(refusal, taken) => {
                    let count = self.before + at + taken;
                    self.write(format!("refused {} {count}", refusal.number()));
                    at + taken + 1
                }
                Fed::Refused(refusal) => {
                    self.write(format!("refused {}", refusal.number()));
                    times.len()
                }
            };
            if at == times.len() {
                break;
            }
        }
        self.before += times.len();
    }

    /// One feed. `uneven` takes one level away, once.
    fn feed(&mut self, times: &[u64], levels: &[u8]) -> Fed {
        let fewer = self.uneven && !times.is_empty();
        self.uneven &= !fewer;
        let levels = &levels[..levels.len() - fewer as usize];
        self.watcher.feed(&self.module, times, levels, &self.buffers.lent());
        self.module.feed(times, levels, &mut self.buffers.lent())
    }

    /// Does a statement that is no edge.
    fn perform(&mut self, statement: Statement) {
        match statement {
            Statement::Edge(..) | Statement::Bytes(..) | Statement::Cut => {}
            Statement::Post(message) => {
                let result = self.module.post(message);
                self.write(format!("post {}", number_of(result)));
            }
            Statement::Status(number, value) => {
                let result = self.module.set_status(number, value);
                self.write(format!("status {}", number_of(result)));
            }
            Statement::Wait(on) => {
                let result = self.module.set_wait(on);
                self.write(format!("wait {}", number_of(result)));
            }
            Statement::Restart => {
                let result = self.module.restart(self.buffers.lent().states);
                self.write(format!("restart {}", number_of(result)));
            }
            Statement::Counts => self.write_on("counts", self.module.counts()),
            Statement::Check => {
                let result = self.module.check(self.buffers.lent().states);
                self.write_on("check", result);
            }
            Statement::Size(bank, size) => self.buffers.sheet[bank as usize] = size,
            Statement::Cell(bank, offset, value) => self.buffers.store[40 * bank as usize + offset] = value,
            Statement::States(place, value) => self.buffers.states[place] = value,
            Statement::Fixed(offset, value) => self.buffers.fixed[offset] = value,
            Statement::View(bank) => self.view(bank),
            Statement::Show => self.show(),
            Statement::Set(field) => self.set(field),
            Statement::Length(buffer, length) => self.set_length(buffer, length),
            Statement::Uneven => self.uneven = true,
            Statement::Encode(command) => self.encode(command),
            Statement::Read(reply) => self.read(&reply),
        }
    }

    /// What is on, or the refusal's number.
    fn write_on(&mut self, word: &str, result: Result<On, Refusal>) {
        match result {
            Ok(on) => self.write(format!("{word} 0 {} {}", on.states, on.functions)),
            Err(refusal) => self.write(format!("{word} {}", refusal.number())),
        }
    }

    /// C-13: what the check gives, and the view.
    fn view(&mut self, bank: u8) {
        let lent = self.buffers.lent();
        let (refusal, cells) = (number_of(lent.banks().check()), lent.banks().view(bank).to_vec());
        self.write_with(format!("view {refusal} {}", cells.len()), &cells);
    }

    fn encode(&mut self, command: Command) {
        match encode(command) {
            Ok(packet) => self.write_with("encode 0".to_string(), &packet),
            Err(refusal) => self.write(format!("encode {}", refusal.number())),
        }
    }

    /// The reader's room is the reply room, which stays as it was.
    fn read(&mut self, reply: &[u8]) {
        let mut room = self.buffers.lent().room.to_vec();
        match read_bank(reply, &mut room) {
            Ok(cells) => self.write_with(format!("read 0 {cells}"), &room[..cells]),
            Err(refusal) => self.write(format!("read {}", refusal.number())),
        }
    }

    fn set_length(&mut self, buffer: Buffer, length: usize) {
        let place = match buffer {
            Buffer::Store => 0,
            Buffer::Sheet => 1,
            Buffer::States => 2,
            Buffer::Room => 3,
            Buffer::Fixed => 4,
        };
        self.buffers.lengths[place] = length;
    }

    fn set(&mut self, field: Field) {
        let module = &mut self.module;
        match field {
            Field::Last(value) => module.receiver.last = value,
            Field::Bits(value) => module.receiver.bits = value,
            Field::Count(value) => module.receiver.count = value,
            Field::First(value) => module.receiver.first = value,
            Field::Second(value) => module.receiver.second = value,
            Field::Held(value) => module.receiver.held = value,
            Field::Start(value) => module.receiver.start = value,
            Field::Started(value) => module.receiver.started = value,
            Field::Half(value) => module.half = value,
            Field::Halfbyte(value) => module.halfbyte = value,
            Field::Actual(value) => module.actual = value,
            Field::Wanted(value) => module.wanted = value,
            Field::Load(value) => module.load = value,
            Field::Address(value) => module.address = value,
            Field::Functions(value) => module.functions = value,
            Field::Control(value) => module.control = value,
            Field::Position(value) => module.position = value,
            Field::Stateson(value) => module.stateson = value,
            Field::Number(value) => module.number = value,
            Field::Wait(value) => module.wait = value,
            Field::Bank(value) => module.bank = value,
            Field::Status0(value) => module.status0 = value,
            Field::Status1(value) => module.status1 = value,
            Field::Registered(value) => module.registered = value,
            Field::Queued(value) => module.queued = value,
            Field::Queue(place, value) => module.queue[place] = value,
        }
    }

    /// The record, the cells and the states that are not 0.
    fn show(&mut self) {
        let m = self.module.clone();
        let half = match m.half {
            Half::None => "none",
            Half::Address => "address",
            Half::State => "state",
            Half::Position => "position",
        };
        self.write(receiver_line(&m.receiver));
        self.write(format!("half {half} {}", m.halfbyte));
        self.write(format!("drive {} {} {} {} {} {}", m.actual, m.wanted, m.load, m.address, m.functions, m.control));
        self.write(position_line(m.position));
        self.write(format!("stateson {}", m.stateson));
        self.write(format!("settings {} {} {}", m.number, m.wait, m.bank));
        self.write(format!("bidi {} {} {} {}", m.status0, m.status1, m.registered as u8, m.queued));
        self.write_with("queue".to_string(), &m.queue);
        for place in 0..STORE {
            let value = self.buffers.store[place];
            if value != 0 {
                self.write(format!("cell {} {} {value}", place / 40, place % 40));
            }
        }
        for number in 0..8 * STATES {
            if self.buffers.states[number / 8] >> (number % 8) & 1 == 1 {
                self.write(format!("state {number}"));
            }
        }
    }
}

fn position_line(position: Position) -> String {
    match position {
        Position::Unknown => "position unknown".to_string(),
        Position::Heard { address, extended } => format!("position {address} {}", extended as u8),
    }
}

fn receiver_line(r: &Receiver) -> String {
    let held = format!("{} {} {} {} {}", r.bits, r.count, r.first, r.second, r.held);
    format!("receiver {} {held} {} {}", r.last, r.start, r.started)
}
