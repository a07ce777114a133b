//! The statement `bytes`: it is its edges, written out.

mod common;
use common::{edge_lines, replay, stopped};

/// What a scenario gives with a line `bytes`, and with the edges that it means.
fn both(before: &str, time: u64, bytes: &[u8], behind: &str) -> (String, String) {
    let words: String = bytes.iter().map(|byte| format!(" {byte:02X}")).collect();
    let short = replay(&format!("{before}bytes {time}{words}\n{behind}"));
    let long = replay(&format!("{before}{}{behind}", edge_lines(time, bytes)));
    (short, long)
}

#[test]
fn bytes_are_their_edges() {
    let packets = [0x7F, 0x85, 0x07, 0x77, 0x85, 0x08, 0x0F, 0x85];
    assert_eq!(replay("bytes 0 7F 85 07 77 85 08 0F 85"), "ack 24 2300\nack 64 6300 8F 07 8F 00\n");
    for before in
        ["", "5 1\n6 1\n", "uneven\n", "set load 128\n", "length room 83\n", "size 0 1\n", "9999 2\n", "9999 1\n"]
    {
        for behind in ["show\n", "cut\nshow\n", "6399 1\nshow\n", "6400 2\n6400 1\nshow", "14300 1\nshow"] {
            let (short, long) = both(before, 0, &packets, behind);
            assert_eq!(short, long, "{before}..{behind}");
        }
    }
}

#[test]
fn bytes_join_a_piece_and_do_not_end_it() {
    // The level that `uneven` takes is the last of the whole piece: one feed, one refusal.
    assert_eq!(replay("uneven\n0 1\nbytes 100 00 00\nbytes 1700 00\n2500 1\ncut\n"), "refused 1\n");
    assert_eq!(replay("set load 128\nbytes 0 00\nbytes 800 00\n"), "refused 12\n");
    // A packet may begin in single edges and end in bytes.
    let rest = "700 0\nbytes 800 85 07\n";
    assert_eq!(replay(&format!("0 1\n100 1\n200 1\n300 1\n400 1\n500 1\n600 1\n{rest}")), "ack 24 2300\n");
}

#[test]
fn bytes_are_edges_for_sizes_and_cells() {
    assert_eq!(stopped("bytes 0 00\nsize 2 3\n"), (String::new(), Some(2)));
    assert_eq!(stopped("bytes 0 00\ncell 2 3 4\n"), (String::new(), Some(2)));
}

#[test]
fn times_of_bytes_are_refused_as_others() {
    // The second line lies before the first: each of its edges is refused, and nothing else.
    let out = replay("bytes 1000 24 80\nbytes 999 00\nshow\n");
    let lines: Vec<&str> = out.lines().collect();
    let refused: Vec<String> = (16..24).map(|count| format!("refused 3 {count}")).collect();
    assert_eq!(lines[..8], refused);
    assert_eq!(lines[8], "receiver 2500 0 0 0 0 0 2500 1");
    // 8,000 µs after the last byte is a pause, at the first edge of the next and at its eighth (C-03).
    let receiver = |scenario: &str| replay(scenario).lines().next().map(str::to_string);
    assert_eq!(receiver("bytes 0 7F 85\nbytes 9500 07\nshow\n"), Some("receiver 10200 0 0 7 0 1 10200 1".into()));
    assert_eq!(receiver("bytes 0 7F 85\nbytes 8800 87\nshow\n"), Some("receiver 9500 1 1 0 0 0 9500 1".into()));
    assert_eq!(replay("bytes 0 7F 85\nbytes 8799 07\n"), "ack 24 9499\n");
}

#[test]
fn the_latest_bytes() {
    let out = replay("bytes 9223372036854775807 01 01\nshow\n");
    assert!(out.starts_with("ack 16 9223372036854777307 81 00 81 00\nreceiver 9223372036854777307 "), "{out}");
    assert_eq!(replay("bytes 0x7fffFFFFffffFFFF 01 01\n"), replay("bytes 09223372036854775807 01 01\n"));
    for late in ["9223372036854775808", "0x8000000000000000", "18446744073709551615", "18446744073709551616"] {
        assert_eq!(stopped(&format!("bytes {late} 00\n")), (String::new(), Some(1)), "{late}");
    }
}

#[test]
fn three_hundred_bytes() {
    let line = |count: usize| format!("bytes 0{}\n", " 01".repeat(count));
    assert_eq!(replay(&line(300)), "ack 16 1500 81 00 81 00\n");
    assert_eq!(stopped(&line(301)), (String::new(), Some(1)));
    assert_eq!(replay(&format!("{}show", line(1))).lines().next(), Some("receiver 700 0 0 1 0 1 700 1"));
}

#[test]
fn digits_of_either_case() {
    assert_eq!(replay("bytes 0 7f 85 aB\nbytes 2400 0F 85 # read it"), "ack 24 2300\nack 40 3900 8F AB 8F 00\n");
}

#[test]
fn what_is_not_bytes() {
    for bad in [
        "bytes",
        "bytes 0",
        "bytes 00 ",
        "bytes 0 7",
        "bytes 0 07F",
        "bytes 0 0x7F",
        "bytes 0 7F 8",
        "bytes 0 7G",
        "bytes 0 G7",
        "bytes 0 -1",
        "bytes 0 +1",
        "bytes 0 7F,85",
        "bytes 0 7F\t85",
        "bytes x 7F",
        "bytes -1 7F",
        "bytes 0x 7F",
        "Bytes 0 7F",
        "byte 0 7F",
    ] {
        assert_eq!(stopped(&format!("wait 1\n{bad}\nshow\n")), ("wait 0\n".to_string(), Some(2)), "{bad}");
    }
}
