//! A module on the desk, with its buffers.
#![allow(dead_code)]

use reference::banks::{Banks, STORE};
use reference::bench::{bench_fixed, bench_sheet};
use reference::module::{Fed, Lent, Module, ROOM, STATES};
use reference::refusal::Refusal;

pub struct Board {
    pub module: Module,
    pub states: Vec<u8>,
    pub store: Vec<u8>,
    pub sheet: Vec<u8>,
    pub fixed: Vec<u8>,
    pub room: Vec<u8>,
    pub time: u64,
}

impl Board {
    /// The bench's module.
    pub fn new() -> Board {
        Board {
            module: Module::new(1),
            states: vec![0; STATES],
            store: vec![0; STORE],
            sheet: bench_sheet(),
            fixed: bench_fixed(),
            room: vec![0; ROOM],
            time: 0,
        }
    }

    pub fn feed(&mut self, times: &[u64], levels: &[u8]) -> Fed {
        let mut lent = Lent {
            states: &mut self.states,
            store: &mut self.store,
            sheet: &self.sheet,
            fixed: &self.fixed,
            room: &mut self.room,
        };
        self.module.feed(times, levels, &mut lent)
    }

    pub fn banks(&self) -> Banks<'_> {
        Banks { store: &self.store, sheet: &self.sheet, fixed: &self.fixed }
    }

    /// Sends one packet, 100 µs a bit. Gives the reply's bytes if it is acknowledged.
    pub fn send(&mut self, packet: &[u8]) -> Option<Vec<u8>> {
        let levels = levels(packet);
        let times: Vec<u64> = (1..=levels.len() as u64).map(|n| self.time + 100 * n).collect();
        self.time += 100 * levels.len() as u64;
        match self.feed(&times, &levels) {
            Fed::Ended { taken } => {
                assert_eq!(taken, levels.len());
                None
            }
            Fed::Acknowledged { taken, reply } => {
                assert_eq!(taken, levels.len());
                Some(self.room[..reply].to_vec())
            }
            other => panic!("{packet:02X?} gave {other:?}"),
        }
    }

    /// Whether the packet is acknowledged, without reply bytes.
    pub fn yes(&mut self, packet: &[u8]) -> bool {
        match self.send(packet) {
            None => false,
            Some(reply) => {
                assert!(reply.is_empty());
                true
            }
        }
    }

    /// Asks every entry of a record that row 12 refuses; "all" means that record and buffers stay.
    pub fn refuses_12(mut self) {
        self.states.fill(7);
        let (module, states, store) = (self.module.clone(), self.states.clone(), self.store.clone());
        self.room.pop();
        self.sheet[0] = 0;
        self.fixed[1] = 0;
        assert_eq!(self.feed(&[], &[]), Fed::Refused(Refusal::Record));
        assert_eq!(self.feed(&[5], &[1]), Fed::Refused(Refusal::Record));
        assert_eq!(self.feed(&[5, 6], &[2]), Fed::Refused(Refusal::Record));
        assert_eq!(self.module.restart(&mut self.states), Err(Refusal::Record));
        assert_eq!(self.module.restart(&mut self.states[1..]), Err(Refusal::Record));
        assert_eq!(self.module.post([0x83, 0, 0x83, 0]), Err(Refusal::Record));
        assert_eq!(self.module.post([0, 0, 0, 0]), Err(Refusal::Record));
        assert_eq!(self.module.set_status(0, 0), Err(Refusal::Record));
        assert_eq!(self.module.set_status(2, 0), Err(Refusal::Record));
        assert_eq!(self.module.set_wait(true), Err(Refusal::Record));
        assert_eq!(self.module.counts(), Err(Refusal::Record));
        assert_eq!(self.module.check(&self.states), Err(Refusal::Record));
        assert_eq!(self.module.check(&self.states[1..]), Err(Refusal::Record));
        assert_eq!((self.module, self.states, self.store), (module, states, store));
    }

    pub fn state(&self, number: usize) -> bool {
        self.states[number / 8] >> (number % 8) & 1 == 1
    }

    pub fn pause(&mut self) {
        self.time += 8_000;
    }
}

/// Bit 0 comes first.
pub fn levels(bytes: &[u8]) -> Vec<u8> {
    bytes.iter().flat_map(|byte| (0..8).map(move |place| byte >> place & 1)).collect()
}

/// What `replay` writes for a scenario.
pub fn replay(scenario: &str) -> String {
    String::from_utf8(reference::replay::replay(scenario.as_bytes()).out).unwrap()
}

/// What it says on standard error.
pub fn complaint(scenario: &str) -> String {
    String::from_utf8(reference::replay::replay(scenario.as_bytes()).said).unwrap()
}

/// What it writes, and the number of the line at which it stops.
pub fn stopped(scenario: &str) -> (String, Option<usize>) {
    let said = complaint(scenario);
    let number = said.strip_prefix("replay: line ").and_then(|rest| rest.split(':').next()?.parse().ok());
    (replay(scenario), number)
}

/// The edges of these bytes as lines of a scenario, 100 µs a bit from this time on.
pub fn edge_lines(from: u64, bytes: &[u8]) -> String {
    let lines = levels(bytes).into_iter().enumerate();
    lines.map(|(n, level)| format!("{} {level}\n", from + 100 * n as u64)).collect()
}
