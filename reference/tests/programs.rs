//! The programs `bench` and `replay`.

mod common;
use common::{complaint, edge_lines, levels, replay, stopped};
use reference::bench::bench;

fn bench_text(bytes: &[u8]) -> String {
    String::from_utf8(bench(bytes)).unwrap()
}

#[test]
fn the_bench_of_the_paper() {
    let bytes = [0x7F, 0x85, 0x07, 0x77, 0x85, 0x08, 0x0F, 0x85];
    assert_eq!(bench_text(&bytes), "ACK\n-\nACK 8F 07 8F 00\n");
}

#[test]
fn an_unfinished_packet_gives_no_line() {
    assert_eq!(bench_text(&[]), "");
    assert_eq!(bench_text(&[0x00]), "");
    assert_eq!(bench_text(&[0x00, 0x00, 0x7F, 0x85]), "-\n");
    assert_eq!(bench_text(&[0x7F, 0x85, 0x07, 0x24]), "ACK\n");
    assert_eq!(bench_text(&[0x70]), "");
    assert_eq!(bench_text(&[0x00, 0x00, 0x7E, 0x85]), "-\n");
    assert_eq!(bench_text(&[0x7E, 0x85, 0x07]), "-\n");
}

#[test]
fn the_bench_has_banks_0_1_and_254() {
    assert_eq!(bench_text(&[0x0C, 0xFE]), "ACK 8E 01 8E 01 8F 9A 8F 00\n");
    assert_eq!(bench_text(&[0x0C, 0x02]), "-\n");
    assert_eq!(bench_text(&[0x0C, 0x01]).len(), 3 + 3 * 84 + 1);
    assert_eq!(bench_text(&[0x0D, 0x01]), "-\n");
    assert_eq!(bench_text(&[0x01, 0x01, 0x01, 0x01, 0x01, 0x05]), "ACK 81 00 81 00\n-\nACK 8A 00 8A 00\n");
}

const FRESH: &str = "receiver 0 0 0 0 0 0 0 0\nhalf none 0\ndrive 0 0 0 0 0 3\nposition unknown\nstateson 0\nsettings 1 0 0\n\
    bidi 0 0 0 0\nqueue 00 00 00 00 00 00 00 00 00 00 00 00 00 00 00 00 00 00 00 00 00 00 00 00 00 00 00 00 00 00 00 00\n";

#[test]
fn a_fresh_module_is_shown() {
    assert_eq!(replay("show\n"), FRESH);
    assert_eq!(replay("  show   # the record"), FRESH);
    assert_eq!(replay(""), "");
    assert_eq!(replay("\n\n   \n# nothing\n"), "");
}

#[test]
fn the_whole_record_is_shown() {
    let fields = "set last 18446744073709551615\nset bits 1\nset count 2\nset first 3\nset second 4\nset held 5\n\
        set start 18446744073709551614\nset started 255\nset half state\nset halfbyte 6\nset actual 7\nset wanted 8\nset load 9\nset address 65535\nset functions 4294967295\n\
        set control 10\nset position 65535 1\nset stateson 65534\nset number 11\nset wait 12\nset bank 13\nset status0 14\nset status1 15\nset registered 1\n\
        set queued 16\nset queue 0 17\nset queue 31 0xfE\n";
    let shown = "receiver 18446744073709551615 1 2 3 4 5 18446744073709551614 255\nhalf state 6\n\
        drive 7 8 9 65535 4294967295 10\nposition 65535 1\nstateson 65534\n\
        settings 11 12 13\nbidi 14 15 1 16\nqueue 11 00 00 00 00 00 00 00 00 00 00 00 00 00 00 00 00 00 00 00 00 00 00 \
        00 00 00 00 00 00 00 00 FE\n";
    assert_eq!(replay(&format!("{fields}show\n")), shown);
    assert_eq!(replay("set half address\nset halfbyte 9\nshow").lines().nth(1), Some("half address 9"));
    assert_eq!(replay("set halfbyte 200\nset half position\nshow").lines().nth(1), Some("half position 200"));
    assert_eq!(replay("set position 0 0\nshow").lines().nth(3), Some("position 0 0"));
    assert_eq!(replay("set position 7 1\nset position unknown\nshow"), FRESH);
}

#[test]
fn cells_and_states_are_shown_rising() {
    let scenario = format!(
        "cell 0 39 1\ncell 255 39 2\ncell 1 0 3\n{}show\n",
        edge_lines(0, &[0x6D, 0x81, 0x6D, 0x88, 0x6E, 0xFF, 0x6F, 0xFF])
    );
    let out = replay(&scenario);
    assert!(out.ends_with("cell 0 39 1\ncell 1 0 3\ncell 255 39 2\nstate 1\nstate 8\nstate 32767\n"), "{out}");
}

#[test]
fn an_answer_has_its_edge_and_time() {
    let scenario = edge_lines(1_000, &[0x7F, 0x85, 0x07, 0x77, 0x85, 0x08, 0x0F, 0x85]);
    assert_eq!(replay(&scenario), "ack 24 3300\nack 64 7300 8F 07 8F 00\n");
}

#[test]
fn cuts_cannot_be_seen() {
    let edges = edge_lines(0, &[0x7F, 0x85, 0x07, 0x0F, 0x85, 0x0C, 0xFE]);
    let whole = replay(&edges);
    assert_eq!(replay(&edges.replace('\n', "\ncut\n")), whole);
    assert_eq!(replay(&edges.replace('\n', "\n\n# nothing\n")), whole);
    assert_eq!(whole.lines().count(), 3);
}

#[test]
fn bad_edges_are_dropped_alone() {
    assert_eq!(
        replay("5 1\n6 2\n4 1\n4 3\n7 1\nshow").lines().take(4).collect::<Vec<_>>(),
        ["refused 2 1", "refused 3 2", "refused 2 3", "receiver 7 3 2 0 0 0 5 1"]
    );
}

#[test]
fn refused_pieces_are_dropped_whole() {
    let out = replay("set load 128\n1 1\n2 1\ncut\n3 1\nset load 0\n4 1\ncut\n5 2\nshow");
    let lines: Vec<&str> = out.lines().collect();
    assert_eq!(lines[..4], ["refused 12", "refused 12", "refused 2 4", "receiver 4 1 1 0 0 0 4 1"]);
}

#[test]
fn a_cut_feeds_an_empty_piece_too() {
    assert_eq!(replay("cut\n"), "");
    assert_eq!(replay("set load 128\ncut\ncut\nset load 127\ncut\n"), "refused 12\nrefused 12\n");
    assert_eq!(replay("length room 83\ncut\n"), "refused 4\n");
    assert_eq!(replay("size 0 1\ncut\n"), "refused 5\n");
}

#[test]
fn uneven_touches_the_next_piece_that_has_edges() {
    assert_eq!(replay("uneven\ncut\n1 1\ncut\n2 1\n3 2\n"), "refused 1\nrefused 2 2\n");
    assert_eq!(replay("uneven\nset load 200\n1 1\nset load 0\n2 2\n"), "refused 12\nrefused 2 1\n");
    assert_eq!(replay("1 2\nuneven\nuneven\n1 2\ncut\n1 2\n"), "refused 2 0\nrefused 1\nrefused 2 2\n");
}

#[test]
fn lengths_are_lent() {
    for (which, length) in
        [("store", 10_239), ("store", 10_300), ("sheet", 255), ("states", 4_097), ("room", 0), ("fixed", 41)]
    {
        assert_eq!(replay(&format!("length {which} {length}\n1 1\n")), "refused 4\n");
    }
    assert_eq!(replay("length room 200\n1 2\n"), "refused 2 0\n");
    assert_eq!(replay("length states 4095\nrestart\nset load 128\nrestart"), "restart 4\nrestart 12\n");
    assert_eq!(replay("length store 0\ncell 255 39 9\nshow").lines().last(), Some("cell 255 39 9"));
    assert_eq!(replay("length sheet 0\nsize 0 1\nlength sheet 256\ncut"), "refused 5\n");
}

#[test]
fn the_applications_statements() {
    assert_eq!(replay("post 0x80 4 0x80 15\npost 0x80 5 0x80 15\n"), "post 0\npost 6\n");
    let nine = "post 0x83 0 0x84 0\n".repeat(9);
    assert_eq!(replay(&nine), format!("{}post 7\n", "post 0\n".repeat(8)));
    assert_eq!(
        replay("status 0 0x13\nstatus 0 4\nstatus 1 3\nstatus 1 16\nstatus 2 0\n"),
        "status 0\nstatus 11\nstatus 0\nstatus 11\nstatus 11\n"
    );
    assert_eq!(replay("wait 1\nwait 0\nset load 255\nwait 1\n"), "wait 0\nwait 0\nwait 12\n");
    assert_eq!(replay("restart\n"), "restart 0\n");
}

#[test]
fn the_hosts_statements() {
    assert_eq!(
        replay("encode noop\nencode write 902 7\nencode write 896 7\n"),
        "encode 0 00 00\nencode 0 7F 85 07\nencode 8\n"
    );
    assert_eq!(
        replay("encode call 1 1 0\nencode bank 0 1\nencode readcv 939\n"),
        "encode 0 01 05\nencode 8\nencode 0 0F AA\n"
    );
    assert_eq!(
        replay("encode positionhigh 15\nencode positionhigh 16\nencode positionlow 255\n"),
        "encode 0 88 0F\nencode 8\nencode 0 89 FF\n"
    );
    assert_eq!(
        replay("read 0x8E 1 0x8E 1 0x8F 0x9A 0x8F 0\nread\nread 0x8E 1 0x8E 1 0x8F 0x9B 0x8F 0\n"),
        "read 0 0\nread 9\nread 10\n"
    );
    assert_eq!(replay("length room 39\nread\nlength room 40\nread\n"), "read 4\nread 9\n");
    assert_eq!(replay("read 0x8F 1 0x8E 1 0x8F 0x9a 0x8F 0\n"), "read 0 1 01\n");
}

/// Lines that are not statements.
const NOT_STATEMENTS: &[&str] = &[
    "cuts",
    "cut 1",
    "Cut",
    "1",
    "1 2 3",
    "1 256",
    "-1 0",
    "1 -0",
    "+1 0",
    "18446744073709551616 0",
    "0x 0",
    "0X1 0",
    "000000000000000000001 0",
    "0x000000000000000000001 0",
    "0x10000000000000000 0",
    "1,0",
    "1\t0",
    "cut\r ",
    "post 1 2 3",
    "post 1 2 3 4 5",
    "post 1 2 3 256",
    "status 1",
    "status 256 0",
    "wait",
    "wait 2",
    "wait on",
    "restart 0",
    "counts 0",
    "Counts",
    "count",
    "check 1",
    "check check",
    "states",
    "states 0",
    "states 0 256",
    "states 4096 0",
    "states 0 0 0",
    "states -1 0",
    "state 1 1",
    "size 256 0",
    "size 0",
    "cell 0 40 0",
    "cell 0 0",
    "cell 0 0 256",
    "fixed",
    "fixed 0",
    "fixed 40 0",
    "fixed 0 256",
    "fixed 0 0 0",
    "fixed -1 0",
    "Fixed 0 0",
    "view",
    "view 256",
    "view 0 0",
    "view store",
    "views 0",
    "show 1",
    "set",
    "set load",
    "set load 256",
    "set load 1 2",
    "set half 0",
    "set half Address",
    "set address 65536",
    "set stateson 65536",
    "set stateson",
    "set stateson 0 0",
    "set states 0",
    "set functions 4294967296",
    "set registered 2",
    "set start 18446744073709551616",
    "set start",
    "set started 256",
    "set started -1",
    "set Start 0",
    "set half Position",
    "set half position 3",
    "set position",
    "set position Unknown",
    "set position unknown 0",
    "set position 0",
    "set position 0 2",
    "set position 0 unknown",
    "set position 65536 0",
    "set position 0 0 0",
    "set queue 32 0",
    "set queue 0",
    "set queue 0 256",
    "set nothing 0",
    "length store 10301",
    "length sheet 301",
    "length states 4201",
    "length room 201",
    "length fixed 61",
    "length fixed",
    "length Fixed 40",
    "length rooms 84",
    "length room",
    "uneven 1",
    "encode",
    "encode noop 0",
    "encode load",
    "encode load 256",
    "encode state 1",
    "encode state 1 2",
    "encode verify 65536 0",
    "encode call 1 2 0",
    "encode positionhigh",
    "encode positionhigh 256",
    "encode positionhigh 1 1",
    "encode positionlow 256",
    "encode position 1",
    "encode nothing",
    "read 256",
    "read x",
];

#[test]
fn what_is_not_a_statement() {
    let long_read = format!("read{}", " 0".repeat(301));
    for bad in NOT_STATEMENTS.iter().copied().chain([long_read.as_str()]) {
        assert_eq!(stopped(&format!("# one\n\n{bad}\nshow\n")), (String::new(), Some(3)), "{bad}");
    }
}

#[test]
fn what_is_a_statement() {
    let long_read = format!("read{}", " 0".repeat(300));
    for (good, out) in [
        ("18446744073709551615 255", "refused 2 0\n"),
        ("00000000000000000001 0x0000000000000000000f", "refused 2 0\n"),
        ("0xffffFFFFffffFFFF 2", "refused 2 0\n"),
        ("0x0000ffffFFFFffffFFFF 2#", "refused 2 0\n"),
        ("wait 0x1", "wait 0\n"),
        ("   wait    01   #  wait 2", "wait 0\n"),
        (&long_read, "read 9\n"),
    ] {
        assert_eq!(replay(good), out, "{good}");
    }
}

#[test]
fn lines_of_1000_bytes() {
    let line = |bytes: usize| format!("wait 1 {}", "#".repeat(bytes - 7));
    assert_eq!(replay(&line(1_000)), "wait 0\n");
    assert_eq!(replay(&format!("{}\nwait 1", line(1_000))), "wait 0\nwait 0\n");
    assert_eq!(replay(&format!("{}\r\nwait 1", line(999))), "wait 0\nwait 0\n");
    assert_eq!(stopped(&line(1_001)), (String::new(), Some(1)));
    for too_long in [format!("wait 1\n{}\nwait 1", line(1_001)), format!("wait 1\n{}\r\nwait 1", line(1_000))] {
        assert_eq!(replay(&too_long), "wait 0\n");
        assert_eq!(
            complaint(&too_long),
            "replay: line 2: too long; expected: at most 1000 bytes before the line feed\n"
        );
    }
}

#[test]
fn sizes_and_cells_stand_before_the_first_edge() {
    assert_eq!(stopped("size 2 40\ncut\nsize 3 40\n1 1\nsize 4 40\nshow\n"), (String::new(), Some(5)));
    assert_eq!(stopped("1 2\ncell 2 0 1\n"), ("refused 2 0\n".to_string(), Some(2)));
    assert_eq!(
        complaint("1 2\ncell 2 0 1 # late\n"),
        "replay: line 2: after an edge: 'cell 2 0 1 '; expected: size and cell before the first edge\n"
    );
    assert!(
        complaint("1 1\ncell 2 40 1\n").starts_with("replay: line 2: a number too large: '40'; expected: cell BANK")
    );
}

#[test]
fn what_was_answered_before_a_bad_line_is_written() {
    let scenario = format!("{}nonsense\n{}", edge_lines(0, &[0x7F, 0x85, 0x07]), edge_lines(9_000, &[0x0F, 0x85]));
    assert_eq!(stopped(&scenario), ("ack 24 2300\n".to_string(), Some(25)));
    assert_eq!(levels(&[0x7F, 0x85, 0x07]).len(), 24);
}

#[test]
fn edges_are_counted_over_restarts_and_drops() {
    let scenario = format!("set load 128\n1 1\n2 1\nset load 0\nrestart\n{}", edge_lines(0, &[0x01, 0x01]));
    assert_eq!(replay(&scenario), "refused 12\nrestart 0\nack 18 1500 81 00 81 00\n");
}

#[test]
fn lines_from_windows() {
    assert_eq!(stopped("wait 1\r\n\r\n# text\r\nwait 0 # text\r\n"), ("wait 0\nwait 0\n".to_string(), None));
    assert_eq!(replay("read 142 1 142 1 143 154 143 0\r\n"), "read 0 0\n");
    let alone = "a carriage return at place 7; expected: text, and spaces between words\n";
    for line in ["wait 1\r", "wait 1\r\r\n", "wait 1\r \n", "wait 1\rwait 1\n"] {
        assert_eq!(complaint(line), format!("replay: line 1: {alone}"), "{line:?}");
    }
    assert_eq!(stopped("wait 1 #\rtext\rtext"), ("wait 0\n".to_string(), None));
}

#[test]
fn what_was_found_and_what_was_expected() {
    for (line, said) in [
        ("1\t0", "a tab at place 2; expected: text, and spaces between words"),
        ("cut\0", "a byte that is no text, 00 at place 4; expected: text, and spaces between words"),
        ("\u{e9} # \u{e9}", "a byte that is no text, C3 at place 1; expected: text, and spaces between words"),
        ("1 256", "a number too large: '256'; expected: TIME LEVEL, TIME below 2^64, LEVEL 0 to 255"),
        ("0x10000000000000000 1", "a number too large: '0x10000000000000000'; expected: TIME LEVEL, TIME below 2^64, LEVEL 0 to 255"),
        ("post 256 2 999 4", "a number too large: '999'; expected: post H D H D, each 0 to 255"),
        ("wait 2", "a number too large: '2'; expected: wait 0 or wait 1"),
        ("set position 65536 2", "a number too large: '2'; expected: set FIELD VALUE, in the range of the field"),
        ("set position 65536 1", "a number too large: '65536'; expected: set FIELD VALUE, in the range of the field"),
        ("set position 65536", "not a statement: 'set position 65536'; expected: set FIELD VALUE, in the range of the field"),
        ("set stateson 65536", "a number too large: '65536'; expected: set FIELD VALUE, in the range of the field"),
        ("counts 0", "not a statement: 'counts 0'; expected: counts"),
        ("check 256", "not a statement: 'check 256'; expected: check"),
        ("states 4096 255", "a number too large: '4096'; expected: states PLACE V, PLACE 0 to 4095, V 0 to 255"),
        ("states 4096 256", "a number too large: '256'; expected: states PLACE V, PLACE 0 to 4095, V 0 to 255"),
        ("states 7", "not a statement: 'states 7'; expected: states PLACE V, PLACE 0 to 4095, V 0 to 255"),
        ("fixed 40 255", "a number too large: '40'; expected: fixed OFFSET V, OFFSET 0 to 39, V 0 to 255"),
        ("fixed 40 256", "a number too large: '256'; expected: fixed OFFSET V, OFFSET 0 to 39, V 0 to 255"),
        ("fixed 39", "not a statement: 'fixed 39'; expected: fixed OFFSET V, OFFSET 0 to 39, V 0 to 255"),
        ("view 256", "a number too large: '256'; expected: view BANK, 0 to 255"),
        ("view", "not a statement: 'view'; expected: view BANK, 0 to 255"),
        (
            "length fixed 61",
            "a number too large: '61'; expected: length WHICH N: store 10300, sheet 300, states 4200, room 200 or fixed 60 at most",
        ),
        (
            "length rooms 84",
            "not a statement: 'length rooms 84'; expected: length WHICH N: store 10300, sheet 300, states 4200, room 200 or fixed 60 at most",
        ),
        ("state 7 1", "not a statement: 'state 7 1'; expected: a statement of docs/REPLAY.md"),
        ("encode positionlow 256", "a number too large: '256'; expected: encode COMMAND .., each number in its range"),
        ("read 0 1 2 3 4 5 256 7", "a number too large: '256'; expected: read BYTE .., up to 300, each 0 to 255"),
        (
            "bytes 9223372036854775808 00 11",
            "a number too large: '9223372036854775808'; expected: bytes TIME HEX .., TIME below 2^63, 1 to 300 bytes of two hexadecimal digits",
        ),
        ("bytes 0 7", "not a statement: 'bytes 0 7'; expected: bytes TIME HEX .., TIME below 2^63, 1 to 300 bytes of two hexadecimal digits"),
        ("post 1 2 3", "not a statement: 'post 1 2 3'; expected: post H D H D, each 0 to 255"),
        ("set nothing 999", "not a statement: 'set nothing 999'; expected: set FIELD VALUE, in the range of the field"),
        ("1 1x", "not a statement: '1 1x'; expected: TIME LEVEL, TIME below 2^64, LEVEL 0 to 255"),
        (" nonsense# text", "not a statement: ' nonsense'; expected: a statement of docs/REPLAY.md"),
    ] {
        assert_eq!(complaint(&format!("\n{line}\nshow\n")), format!("replay: line 2: {said}\n"));
    }
    assert_eq!(complaint("show\n"), "");
}

#[test]
fn a_comment_may_touch_the_last_word() {
    assert_eq!(replay("read 142 1 142 1 143 154 143 5#c\n"), "read 9\n");
    assert_eq!(replay("post 0x80 4 0x80 15#c\nwait 1#\nencode load 7#8\n"), "post 0\nwait 0\nencode 0 26 07\n");
}
