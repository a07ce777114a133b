//! C-05: how many of the states 1 to 32767 are on, as the record keeps it, and how many of F0 to F28.

mod common;
use common::{levels, replay, Board};
use reference::module::{Fed, Half, Module, On, STATES};
use reference::refusal::Refusal;

fn on(states: u16, functions: usize) -> Result<On, Refusal> {
    Ok(On { states, functions })
}

/// Packets of two bytes, none of which is acknowledged.
fn send(board: &mut Board, bytes: &[u8]) {
    for packet in bytes.chunks(2) {
        assert_eq!(board.send(packet), None, "{packet:02X?}");
    }
}

/// The bench's module after these packets.
fn after(bytes: &[u8]) -> Board {
    let mut board = Board::new();
    send(&mut board, bytes);
    board
}

/// State by state.
fn recounted(board: &Board) -> u16 {
    (1..=32_767).filter(|&number| board.state(number)).count() as u16
}

fn checked(board: &Board) -> Result<On, Refusal> {
    board.module.check(&board.states)
}

/// The number that is kept, and whether it is the true one: then the check gives it.
fn number(board: &Board) -> (u16, bool) {
    let kept = board.module.stateson;
    let right = kept == recounted(board);
    assert_eq!(checked(board).is_ok(), right, "{kept}");
    assert_eq!(board.module.counts(), on(kept, board.module.functions.count_ones() as usize));
    (kept, right)
}

#[test]
fn the_rows_of_the_request() {
    for (bytes, states) in [
        (&[0x00, 0x00][..], 0),
        (&[0x6D, 0x81], 1),
        (&[0x6D, 0x81, 0x6D, 0x81], 1),
        (&[0x6D, 0x81, 0x6D, 0x01], 0),
        (&[0x6D, 0x01], 0),
        (&[0x6D, 0x80], 127),
        (&[0x6D, 0x80, 0x6D, 0x80], 127),
        (&[0x6D, 0x80, 0x6D, 0x00], 0),
        (&[0x6D, 0x00], 0),
        (&[0x6E, 0x80, 0x6F, 0x00], 32_767),
        (&[0x6E, 0x80, 0x6F, 0x00, 0x6E, 0x80, 0x6F, 0x00], 32_767),
        (&[0x6E, 0x80, 0x6F, 0x00, 0x6D, 0x00], 32_640),
        (&[0x6E, 0x80, 0x6F, 0x00, 0x6D, 0x01], 32_766),
        (&[0x6E, 0x80, 0x6F, 0x00, 0x6D, 0x81], 32_767),
        (&[0x6E, 0x80, 0x6F, 0x00, 0x6E, 0x00, 0x6F, 0x00], 0),
        // States 1, 2 and 200, by both forms; then the short ones off, on, and the long ones off.
        (&[0x6D, 0x81, 0x6E, 0x82, 0x6F, 0x00, 0x6E, 0xC8, 0x6F, 0x01], 3),
        (&[0x6D, 0x81, 0x6D, 0x82, 0x6E, 0xC8, 0x6F, 0x01, 0x6D, 0x00], 1),
        (&[0x6D, 0x81, 0x6D, 0x82, 0x6E, 0xC8, 0x6F, 0x01, 0x6D, 0x80], 128),
        (&[0x6D, 0x81, 0x6D, 0x82, 0x6E, 0xC8, 0x6F, 0x01, 0x6E, 0x00, 0x6F, 0x00], 0),
        // A high half alone does nothing.
        (&[0x6E, 0x80, 0x00, 0x00, 0x6F, 0x00], 0),
        (&[0x6F, 0x01], 0),
    ] {
        let board = after(bytes);
        assert_eq!((number(&board), checked(&board)), ((states, true), on(states, 0)), "{bytes:02X?}");
    }
}

/// On, on again, off, off again; by either form where there are two.
#[test]
fn one_state_twice() {
    for state in [1, 2, 7, 8, 126, 127, 128, 129, 255, 256, 16_384, 32_766, 32_767u16] {
        let long = |on: u8| vec![0x6E, on | (state % 128) as u8, 0x6F, (state / 128) as u8];
        let short = |on: u8| vec![0x6D, on | state as u8];
        let mut forms = vec![[long(0x80), long(0x80), long(0), long(0)]];
        if state <= 127 {
            forms.push([short(0x80), short(0x80), short(0), short(0)]);
            forms.push([short(0x80), long(0x80), short(0), long(0)]);
        }
        for form in forms {
            for begin in [&[][..], &[0x6D, 0x80], &[0x6E, 0x80, 0x6F, 0x00], &[0x6E, 0xE4, 0x6F, 0x40]] {
                let mut board = after(begin);
                let others = recounted(&board) - board.state(state as usize) as u16;
                for (bytes, own) in form.iter().zip([1, 1, 0, 0]) {
                    send(&mut board, bytes);
                    assert_eq!(number(&board), (others + own, true), "{state}: {bytes:02X?}");
                }
            }
        }
    }
}

/// "So a true count stays true": packets of every kind, one after the other.
#[test]
fn a_true_number_stays_true() {
    let mut board = Board::new();
    let mut seed: u32 = 5;
    let mut some = |below: u32| {
        seed = seed.wrapping_mul(1_664_525).wrapping_add(1_013_904_223);
        (seed >> 8) % below
    };
    for _ in 0..3_000 {
        let (low, high) = (some(256) as u8, some(256) as u8);
        match some(40) {
            0 => send(&mut board, &[0x6D, 0x80]),
            1 => send(&mut board, &[0x6D, 0x00]),
            2 => send(&mut board, &[0x6E, low & 0x80, 0x6F, 0x00]),
            3..=14 => send(&mut board, &[0x6D, low]),
            15..=26 => send(&mut board, &[0x6E, low, 0x6F, high % 3]),
            27..=36 => send(&mut board, &[0x6E, low, 0x6F, high]),
            37 => send(&mut board, &[0x6E, low, 0x00, 0x00, 0x6F, high]),
            38 => board.states[0] ^= 1,
            _ => send(&mut board, &[0x63, low]),
        }
        assert_eq!(board.module.stateson, recounted(&board));
        assert!(checked(&board).is_ok());
    }
}

/// Bit 0 of byte 0 is no state: not counted, left by one state, and cleared by every broadcast.
#[test]
fn bit_0_of_byte_0_is_left_out() {
    for (bytes, states, bit) in [
        (&[0x00, 0x00][..], 0, 1),
        (&[0x6D, 0x81], 1, 1),
        (&[0x6D, 0x01], 0, 1),
        (&[0x6E, 0x81, 0x6F, 0x00], 1, 1),
        (&[0x6E, 0x80, 0x6F, 0x01], 1, 1),
        (&[0x6D, 0x80], 127, 0),
        (&[0x6D, 0x00], 0, 0),
        (&[0x6D, 0x83, 0x6D, 0x00], 0, 0),
        (&[0x6E, 0x80, 0x6F, 0x00], 32_767, 0),
        (&[0x6E, 0x00, 0x6F, 0x00], 0, 0),
    ] {
        let mut board = Board::new();
        board.states[0] = 1;
        assert_eq!(checked(&board), on(0, 0));
        send(&mut board, bytes);
        assert_eq!((number(&board), board.states[0] & 1), ((states, true), bit), "{bytes:02X?}");
    }
    let mut board = after(&[0x6E, 0x80, 0x6F, 0x00]);
    board.states[0] = 255;
    assert_eq!(checked(&board), on(32_767, 0), "all 32,768 bits");
    board.module.stateson = 32_768;
    assert_eq!(checked(&board), Err(Refusal::Record));
    let mut board = Board::new();
    (board.states[0], board.module.stateson) = (1, 1);
    assert_eq!(checked(&board), Err(Refusal::Record));
}

/// A number that is wrong is moved like a true one, modulo 65,536; a long broadcast and a restart set it.
#[test]
fn a_wrong_number_is_moved_too() {
    let two = &[0x6D, 0x81, 0x6E, 0xC8, 0x6F, 0x01];
    for (before, kept, bytes, states) in [
        (&[][..], 65_535, &[0x6D, 0x81][..], 0),
        (&[], 65_534, &[0x6D, 0x81], 65_535),
        (&[], 65_535, &[0x6E, 0x80, 0x6F, 0x01], 0),
        (&[], 65_535, &[0x6D, 0x01], 65_535),
        (two, 0, &[0x6D, 0x01], 65_535),
        (two, 1, &[0x6D, 0x01], 0),
        (two, 0, &[0x6E, 0x48, 0x6F, 0x01], 65_535),
        (two, 0, &[0x6D, 0x81], 0),
        (two, 0, &[0x6E, 0xC8, 0x6F, 0x01], 0),
        (two, 0, &[0x6D, 0x00], 65_535),
        (two, 5, &[0x6D, 0x00], 4),
        (two, 5, &[0x6D, 0x80], 131),
        (two, 65_409, &[0x6D, 0x80], 65_535),
        (two, 65_410, &[0x6D, 0x80], 0),
        (&[], 65_408, &[0x6D, 0x80], 65_535),
        (&[], 65_409, &[0x6D, 0x80], 0),
        (&[], 7, &[0x6D, 0x00], 7),
        (&[0x6D, 0x80], 0, &[0x6D, 0x80], 0),
        (&[0x6D, 0x80], 126, &[0x6D, 0x00], 65_535),
        (&[0x6D, 0x80], 127, &[0x6D, 0x00], 0),
        (&[], 32_767, &[0x6D, 0x81], 32_768),
        (&[], 40_000, &[0x6E, 0x80, 0x6F, 0x00], 32_767),
        (two, 40_000, &[0x6E, 0x00, 0x6F, 0x00], 0),
        (two, 1, &[0x6E, 0x80, 0x6F, 0x00], 32_767),
    ] {
        let mut board = after(before);
        board.module.stateson = kept;
        send(&mut board, bytes);
        assert_eq!(number(&board).0, states, "{before:02X?} {kept} {bytes:02X?}");
    }
    let mut board = after(two);
    board.module.stateson = 65_535;
    board.module.restart(&mut board.states).unwrap();
    assert_eq!(number(&board), (0, true));
}

/// Row 12 gains nothing: no entry but the check refuses a number, and what they do is as with the true one.
#[test]
fn every_number_is_possible() {
    for stateson in 0..=65_535 {
        let mut module = Module { stateson, ..Module::new(1) };
        assert_eq!((module.broken_clauses().len(), module.counts()), (0, on(stateson, 0)));
        let wanted = if stateson == 0 { on(0, 0) } else { Err(Refusal::Record) };
        assert_eq!(module.check(&[0; STATES]), wanted);
        module.post([0x83, 0, 0x83, 0]).unwrap();
        module.set_status(0, 1).unwrap();
        module.set_wait(true).unwrap();
        assert_eq!(module.stateson, stateson);
    }
    for stateson in [1, 32_767, 32_768, 65_535] {
        let mut board = Board::new();
        board.module.stateson = stateson;
        assert_eq!(board.feed(&[], &[]), Fed::Ended { taken: 0 });
        assert!(board.yes(&[0x7F, 0x85, 7]));
        assert_eq!(number(&board).0, stateson);
        assert_eq!(board.module.restart(&mut board.states), Ok(()));
        assert_eq!(number(&board), (0, true));
    }
}

/// 12 for the record, 4, 12 for the number. The light entry knows the first alone.
#[test]
fn the_order_of_refusals() {
    let mut board = after(&[0x6D, 0x81]);
    for stateson in [0, 1, 2] {
        board.module.stateson = stateson;
        let (record, states) = (board.module.clone(), board.states.clone());
        for length in [0, 1, 4_095, 4_097] {
            assert_eq!(board.module.check(&vec![255; length]), Err(Refusal::Length), "{length}");
        }
        assert_eq!(checked(&board), if stateson == 1 { on(1, 0) } else { Err(Refusal::Record) });
        board.module.load = 128;
        for length in [4_095, 4_096] {
            assert_eq!(board.module.check(&board.states[..length]), Err(Refusal::Record));
        }
        assert_eq!(board.module.counts(), Err(Refusal::Record));
        board.module.load = 127;
        assert_eq!(board.module.counts(), on(stateson, 0));
        board.module.load = 0;
        assert_eq!((&board.module, &board.states), (&record, &states));
    }
}

/// Any bit but the first makes a difference of one.
#[test]
fn every_bit_is_recounted() {
    for place in 0..8 * STATES {
        let mut states = [0; STATES];
        states[place / 8] = 1 << (place % 8);
        let wanted = (place > 0) as u16;
        for stateson in 0..=2 {
            let module = Module { stateson, ..Module::new(1) };
            let result = if stateson == wanted { on(wanted, 0) } else { Err(Refusal::Record) };
            assert_eq!(module.check(&states), result, "{place}");
        }
    }
}

#[test]
fn functions_are_counted() {
    for function in 0..=28 {
        let module = Module { functions: 1 << function, ..Module::new(1) };
        assert_eq!((module.counts(), module.check(&[0; STATES])), (on(0, 1), on(0, 1)), "F{function}");
    }
    for (bytes, functions) in [
        (&[0x60, 0x10][..], 1),
        (&[0x60, 0xE0], 0),
        (&[0x60, 0xFF], 5),
        (&[0x61, 0xFF], 8),
        (&[0x62, 0x55], 4),
        (&[0x63, 0x80], 1),
        (&[0x60, 0x1F, 0x61, 0xFF, 0x62, 0xFF, 0x63, 0xFF], 29),
        (&[0x60, 0x1F, 0x61, 0xFF, 0x62, 0xFF, 0x63, 0x7F], 28),
        (&[0x60, 0x1F, 0x63, 0xFF, 0x6C, 0x01], 0),
        (&[0x60, 0x1F, 0x63, 0xFF, 0x6C, 0x02], 13),
    ] {
        let board = after(bytes);
        assert_eq!((board.module.counts(), checked(&board)), (on(0, functions), on(0, functions)), "{bytes:02X?}");
    }
    let module = Module { functions: 1 << 29, ..Module::new(1) };
    assert_eq!((module.counts(), module.check(&[0; STATES])), (Err(Refusal::Record), Err(Refusal::Record)));
}

#[test]
fn nothing_but_states_and_a_restart_changes_the_number() {
    for first in (0..=255u8).filter(|first| *first != 0x6D) {
        for data in [0x00, 0x01, 0x0F, 0x7F, 0x80, 0x85, 0xFF] {
            let mut board = after(&[0x6D, 0x85]);
            board.module.stateson = 9;
            board.send(&[first, data, data][..if (0x70..=0x7F).contains(&first) { 3 } else { 2 }]);
            assert_eq!(number(&board).0, 9, "{first:02X} {data:02X}");
        }
    }
    let mut board = after(&[0x6D, 0x85, 0x6E, 0x80]);
    assert_eq!((board.module.half, number(&board)), (Half::State, (1, true)));
    board.pause();
    send(&mut board, &[0x6F, 0x00]);
    assert_eq!(number(&board), (1, true), "a pause drops the half");
    let mut few = [0; 4_095];
    assert_eq!(board.module.restart(&mut few), Err(Refusal::Length));
    assert_eq!(number(&board), (1, true), "a refused restart leaves it");
}

/// A feed counts as its edges come, cut anywhere, and up to a bad edge.
#[test]
fn cuts_change_nothing() {
    let levels = levels(&[0x6D, 0x81, 0x6E, 0x80, 0x6F, 0x01, 0x6D, 0x80]);
    let times: Vec<u64> = (0..levels.len() as u64).map(|n| 100 * n).collect();
    for cut in 0..=levels.len() {
        let mut board = Board::new();
        for part in [0..cut, cut..levels.len()] {
            board.feed(&times[part.clone()], &levels[part]);
        }
        assert_eq!(number(&board), (128, true), "{cut}");
    }
    let mut board = Board::new();
    let mut bad = levels.clone();
    bad[50] = 2;
    assert_eq!(board.feed(&times, &bad), Fed::BadEdge(Refusal::Level, 50));
    assert_eq!(number(&board), (2, true));
}

#[test]
fn the_statements() {
    assert_eq!(replay("counts\ncheck\n"), "counts 0 0 0\ncheck 0 0 0\n");
    assert_eq!(replay("bytes 0 6D 81 6D 81 60 03\ncheck\n"), "check 0 1 2\n");
    assert_eq!(
        replay("set stateson 65535\nbytes 0 6D 81 6D 81 60 03\ncounts\ncheck\n"),
        "counts 0 0 2\ncheck 12\n",
        "of the page"
    );
    assert_eq!(
        replay("set stateson 1\ncounts\ncheck\nlength states 4095\ncounts\ncheck\nset load 128\ncounts\ncheck\n"),
        "counts 0 1 0\ncheck 12\ncounts 0 1 0\ncheck 4\ncounts 12\ncheck 12\n"
    );
    assert_eq!(replay("length states 4097\ncheck\nlength states 4096\ncheck\n"), "check 4\ncheck 0 0 0\n");
    assert_eq!(replay("set functions 0x1FFFFFFF\ncheck\ncounts"), "check 0 0 29\ncounts 0 0 29\n");
    assert_eq!(
        replay(
            "states 0 255\nstates 4095 0x80\ncheck\nset stateson 8\ncheck\nstates 0 0\ncheck\nset stateson 1\ncheck"
        ),
        "check 12\ncheck 0 8 0\ncheck 12\ncheck 0 1 0\n"
    );
}

/// `states` may stand behind edges, and changes what is lent whatever its length.
#[test]
fn states_at_any_time() {
    assert_eq!(replay("bytes 0 6D 81\nstates 0 1\ncheck\ncounts\n"), "check 12\ncounts 0 1 0\n");
    assert_eq!(replay("length states 0\nstates 4095 1\nlength states 4096\ncheck\n"), "check 12\n");
    let shown = replay("bytes 0 6D 81\nstates 0 3\nstates 4095 0x81\nshow\n");
    assert!(shown.contains("\nposition unknown\nstateson 1\nsettings "), "{shown}");
    assert!(shown.ends_with("\nstate 0\nstate 1\nstate 32760\nstate 32767\n"), "{shown}");
    assert_eq!(replay("set stateson 65535\nshow\n").lines().nth(4), Some("stateson 65535"));
    assert_eq!(replay("states 9 9\nset stateson 9\nrestart\ncheck\n"), "restart 0\ncheck 0 0 0\n");
}

/// Each of them ends a piece: the refusal of the edge before comes first.
#[test]
fn each_ends_a_piece() {
    for (line, written) in [("counts", "counts 0 0 0\n"), ("check", "check 0 0 0\n"), ("states 0 0", "")] {
        assert_eq!(replay(&format!("5 1\n6 2\n{line}\n7 2\n")), format!("refused 2 1\n{written}refused 2 2\n"));
        assert_eq!(replay(&format!("uneven\n5 1\n{line}\n7 2\n")), format!("refused 1\n{written}refused 2 1\n"));
    }
}
