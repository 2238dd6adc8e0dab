//! Plays turns from standard input to standard output.

use reference::player::Player;
use std::io::{self, Read, Write};

const CHUNK: usize = 65_536;

fn main() -> io::Result<()> {
    let mut input = io::stdin().lock();
    let mut output = io::stdout().lock();
    let mut player = Player::default();
    let mut chunk = vec![0; CHUNK];
    let mut out = Vec::with_capacity(2 * CHUNK);
    while !player.ended() {
        let len = match input.read(&mut chunk) {
            Ok(0) => break,
            Ok(len) => len,
            Err(error) if error.kind() == io::ErrorKind::Interrupted => continue,
            Err(error) => return Err(error),
        };
        player.feed(&chunk[..len], &mut out);
        output.write_all(&out)?;
        out.clear();
    }
    player.finish(&mut out);
    output.write_all(&out)?;
    output.flush()
}
