//! The whole case of the player, and lines of every other form.

use reference::player::Player;

const INPUT: &str =
    "start\t2\t1\t1\ncreate\t0\t0\nnext\t0\nnext\t0\ncreate\t0\t1\ndrop\t0\t0\ncensus\n";
const OUTPUT: &str =
    "1\tdone\n2\tmore\n3\tmore\n4\tdone\n5\trefused 7\n6\tdone\n7\t0\t2\t0\t0\t1\t1\n";

/// Plays the input in chunks of one length.
fn play(input: &[u8], chunk: usize) -> String {
    let mut player = Player::default();
    let mut out = Vec::new();
    for bytes in input.chunks(chunk) {
        player.feed(bytes, &mut out);
    }
    player.finish(&mut out);
    String::from_utf8(out).unwrap()
}

#[test]
fn the_whole_case_in_every_cut() {
    for chunk in 1..=INPUT.len() {
        assert_eq!(play(INPUT.as_bytes(), chunk), OUTPUT);
        assert_eq!(play(INPUT.trim_end().as_bytes(), chunk), OUTPUT);
    }
}

#[test]
fn nothing_gives_nothing() {
    assert_eq!(play(b"", 1), "");
}

#[test]
fn a_line_of_no_such_form_is_unreadable_first_of_all() {
    let long = format!("drop\t0\t{}", "0".repeat(58));
    for line in [
        "",
        "Collect",
        "collect\t",
        "collect\t0",
        "next",
        "next\t",
        "next\t-1",
        "next\t123456",
        "next 0",
        "next\t0\r",
        "read\t0\t0\t0\t0\t0",
        &long,
    ] {
        let input = format!("{line}\ncollect");
        assert_eq!(play(input.as_bytes(), 7), "1\trefused 8\n2\trefused 1\n");
    }
}

#[test]
fn a_refused_start_leaves_the_store() {
    let input = b"start\t00002\t1\t1\nstart\t99999\t1\t1\nstart\t3\t4\t1\nstart\t3\t1\t9\ncensus";
    let output = "1\tdone\n2\trefused 1\n3\trefused 1\n4\trefused 1\n5\t1\t1\t0\t0\t1\t0\n";
    assert_eq!(play(input, 64), output);
}
