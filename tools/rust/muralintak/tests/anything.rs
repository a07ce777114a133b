//! The face asks nothing of its caller: whatever it is given, it answers, and a refusal changes nothing.
use muralintak::counts::{checked_counts, shown_counts, Counts};
use muralintak::firmware::muralintak_edge;
use muralintak::host::read_bank;
use muralintak::line::{Packet, Receiver};
use muralintak::module::{feed, post, restart, set_status, set_wait, Answer, Module, Sheets};
use muralintak::onward;
use muralintak::refusals::Refusal;
use muralintak::view::{bank_view, view_refusal};

/// Numbers that look random, the same in every run.
struct Draw(u64);

impl Draw {
    fn next(&mut self) -> u64 {
        self.0 ^= self.0 << 13;
        self.0 ^= self.0 >> 7;
        self.0 ^= self.0 << 17;
        self.0
    }

    fn below(&mut self, n: u64) -> u64 {
        self.next() % n
    }

    /// Mostly small, so that possible receivers come up often.
    fn receiver(&mut self) -> Receiver {
        let mut byte = |most: u64| if self.below(8) == 0 { self.next() as u8 } else { self.below(most) as u8 };
        let [bits, count, first, second, held, started] = [byte(8), byte(9), byte(2), byte(2), byte(4), byte(2)];
        let last = if self.below(4) == 0 { self.next() } else { self.below(9_000) };
        let start = if self.below(8) == 0 { self.next() } else { last.saturating_sub(self.below(9_000)) };
        Receiver { last, start, started, bits, count, first, second, held }
    }

    /// The length that is asked for, or one near it.
    fn length(&mut self, asked: usize) -> usize {
        if self.below(20) == 0 { asked - 1 + self.below(3) as usize } else { asked }
    }

    fn sizes(&mut self) -> Vec<u8> {
        let mut sizes = vec![0; self.length(256)];
        (sizes[0], sizes[1], sizes[254]) = (40, 2, 2);
        let at = self.below(256) as usize;
        if at < sizes.len() {
            sizes[at] = self.below(42) as u8;
        }
        sizes
    }

    /// The fixed sheet: mostly a good one, its other bytes anything.
    fn fixed(&mut self) -> Vec<u8> {
        let mut fixed: Vec<u8> = (0..self.length(40)).map(|_| self.next() as u8).collect();
        fixed[1] = if self.below(10) == 0 { 10 + self.below(3) as u8 } else { 11 };
        fixed
    }

    fn edges(&mut self, from: u64) -> (Vec<u64>, Vec<u8>) {
        let n = self.below(400) as usize;
        let mut time = from;
        let mut times = Vec::new();
        for _ in 0..n {
            time = time.wrapping_add(if self.below(100) == 0 { self.next() } else { self.below(300) });
            times.push(time);
        }
        let n = self.length(n + 1) - 1;
        let levels = (0..n).map(|_| if self.below(200) == 0 { 2 } else { self.below(2) as u8 }).collect();
        (times, levels)
    }
}

#[test]
fn every_receiver_answers_every_edge() {
    let mut draw = Draw(1);
    for _ in 0..200_000 {
        let receiver = draw.receiver();
        let time = if draw.below(2) == 0 { draw.next() } else { receiver.last.wrapping_add(draw.below(9_000)) };
        let level = draw.below(3) as u8;
        let answer = receiver.edge(time, level);
        let mut in_place = receiver;
        let outcome = muralintak_edge(&mut in_place, time, level);
        match answer {
            Ok(heard) => {
                assert_eq!((outcome.refusal, outcome.packet), (0, heard.packet.unwrap_or(Packet::none())));
                assert_ne!(heard.packet.map(|packet| packet.length), Some(0));
                assert_eq!(in_place, heard.receiver);
                assert!(in_place.possible());
            }
            Err(why) => {
                assert_eq!((outcome.refusal, outcome.packet), (why.number(), Packet::none()));
                assert_eq!(in_place, receiver);
            }
        }
    }
}

#[test]
fn every_board_answers_every_recording() {
    let mut draw = Draw(2);
    for _ in 0..2_000 {
        let mut kept = Module::new();
        if draw.below(4) == 0 {
            kept.receiver = draw.receiver();
        }
        kept = post(kept, (draw.next() as u32).to_le_bytes()).unwrap_or(kept);
        kept = set_status(kept, draw.below(3) as u8, draw.next() as u8).unwrap_or(kept);
        kept = set_wait(kept, draw.below(2) == 0).unwrap_or(kept);
        kept.drive.functions = draw.next() as u32 >> draw.below(8);
        kept.stateson = if draw.below(4) == 0 { draw.next() as u16 } else { 0 };
        let (times, levels) = draw.edges(kept.receiver.last);
        let mut states = vec![0; draw.length(4_096)];
        let mut store = vec![0; draw.length(10_240)];
        let mut room = vec![0; draw.length(84)];
        let (sizes, fixed) = (draw.sizes(), draw.fixed());
        let sheets = Sheets { sizes: &sizes, fixed: &fixed };
        let before = (states.clone(), store.clone(), room.clone());
        let was_true = kept.stateson == 0;
        match feed(kept, &times, &levels, &mut states, &mut store, sheets, &mut room) {
            Ok(fed) => {
                match fed.answer {
                    Answer::BadEdge(_, taken) | Answer::Silent(taken) => assert!(taken <= times.len()),
                    Answer::Acknowledged(taken, reply) => assert!(taken <= times.len() && reply <= 84),
                }
                kept = fed.kept;
            }
            Err(_) => assert_eq!(before, (states.clone(), store.clone(), room.clone())),
        }
        counted(kept, was_true, &states);
        viewed(draw.next() as u8, &store, sheets);
        let at = draw.next() as usize;
        if let Ok(turn) = onward::feed(kept, at, &times, &levels, &mut states, &mut store, sheets, &mut room) {
            assert!(turn.at <= times.len());
            kept = turn.kept;
        }
        let restarted = restart(kept, &mut states);
        assert!(restarted.is_err() || states.iter().all(|&byte| byte == 0));
    }
}

/// The view of a bank is that part of what was lent, and no copy; refused, it is empty.
fn viewed(bank: u8, store: &[u8], sheets: Sheets) {
    let Sheets { sizes, fixed } = sheets;
    let bad_size = |bank: usize, size: u8| match bank {
        0 | 1 => size < 2 || 40 < size,
        251..=253 => size != 0,
        254 => size != 2,
        _ => 40 < size,
    };
    let refusal = if (store.len(), sizes.len(), fixed.len()) != (10_240, 256, 40) {
        Err(Refusal::Lengths)
    } else if sizes.iter().enumerate().any(|(bank, &size)| bad_size(bank, size)) || fixed[1] != 11 {
        Err(Refusal::Sheet)
    } else {
        Ok(())
    };
    assert_eq!(view_refusal(store, sheets), refusal);
    for bank in [bank, 0, 1, 250, 254] {
        let part = bank_view(store, sheets, bank);
        if refusal.is_err() {
            assert!(part.is_empty());
            continue;
        }
        let start = 40 * bank as usize;
        let size = sizes[bank as usize] as usize;
        let whole = if bank == 254 { &fixed[..size] } else { &store[start..start + size] };
        assert_eq!((part.as_ptr(), part.len()), (whole.as_ptr(), size));
    }
}

/// Both entries that say how many are on, against a count bit by bit; a true number, here one that began at 0, is still true.
fn counted(kept: Module, is_true: bool, states: &[u8]) {
    let bit = |n: usize| states[n / 8] >> (n % 8) & 1 == 1;
    let functions = (0..32).filter(|n| kept.drive.functions >> n & 1 == 1).count() as u8;
    let given = Ok(Counts { states: kept.stateson, functions });
    let by_record = if kept.possible() { given } else { Err(Refusal::Impossible) };
    assert_eq!(shown_counts(kept), by_record);
    let checked = checked_counts(kept, states);
    if !kept.possible() || states.len() != 4_096 {
        assert_eq!(checked, Err(if kept.possible() { Refusal::Lengths } else { Refusal::Impossible }));
        return;
    }
    let on = (1..32_768).filter(|&n| bit(n)).count();
    assert_eq!(checked, if on == kept.stateson as usize { given } else { Err(Refusal::Impossible) });
    assert!(!is_true || checked == given);
}

#[test]
fn every_reply_is_read_or_refused() {
    let mut draw = Draw(3);
    let good = [0x8F, 0x11, 0x8F, 0x22, 0x8F, 0x33, 0x8E, 0x01, 0x8F, 0x4A, 0x8F, 0x00];
    for _ in 0..200_000 {
        let mut reply = good.to_vec();
        for _ in 0..draw.below(3) {
            let at = draw.below(12) as usize;
            reply[at] = draw.next() as u8;
        }
        reply.truncate(draw.length(12));
        let mut room = vec![7; draw.length(40)];
        match read_bank(&reply, &mut room) {
            Ok(cells) => assert!(room[cells..].iter().all(|&byte| byte == 7)),
            Err(_) => assert!(room.iter().all(|&byte| byte == 7)),
        }
    }
}
