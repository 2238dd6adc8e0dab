//! The player: turns from lines of text.

use crate::*;

/// The most bytes of a line.
const LINE: usize = 64;
/// The answer to an unreadable line.
const UNREADABLE: u32 = 8;

/// A player with its own store. Until a start succeeds its record says N = 0,
/// and so every call is refused with 1.
pub struct Player {
    record: [u32; 9],
    desk: [u16; ROW * MOST_WRITERS as usize],
    fields: [u16; 16_384],
    colours: [u8; 4_096],
    counts: [u32; 6],
    /// Output lines so far.
    lines: u32,
    /// The beginning of a line whose end has not come yet.
    kept: [u8; LINE],
    /// Its length, or `LINE + 1` if it is too long.
    kept_len: usize,
}

impl Default for Player {
    fn default() -> Self {
        Player {
            record: [0; 9],
            desk: [0; ROW * MOST_WRITERS as usize],
            fields: [NONE; 16_384],
            colours: [FREE; 4_096],
            counts: [0; 6],
            lines: 0,
            kept: [0; LINE],
            kept_len: 0,
        }
    }
}

impl Player {
    /// Plays the lines that end in these bytes; the rest waits for more.
    pub fn feed(&mut self, bytes: &[u8], out: &mut Vec<u8>) {
        let mut rest = bytes;
        while let Some(end) = rest.iter().position(|&b| b == b'\n') {
            let line = &rest[..end];
            rest = &rest[end + 1..];
            if self.kept_len == 0 {
                self.play(line, out);
            } else {
                self.keep(line);
                self.play_kept(out);
            }
        }
        self.keep(rest);
    }

    /// Plays the bytes after the last line end, if there are any.
    pub fn finish(&mut self, out: &mut Vec<u8>) {
        if self.kept_len > 0 {
            self.play_kept(out);
        }
    }

    /// Whether the last possible output line has been given.
    pub fn ended(&self) -> bool {
        self.lines == u32::MAX
    }

    fn keep(&mut self, bytes: &[u8]) {
        let end = self.kept_len + bytes.len();
        match self.kept.get_mut(self.kept_len..end) {
            Some(room) => {
                room.copy_from_slice(bytes);
                self.kept_len = end;
            }
            None => self.kept_len = LINE + 1,
        }
    }

    fn play_kept(&mut self, out: &mut Vec<u8>) {
        let kept = self.kept;
        self.play(kept.get(..self.kept_len).unwrap_or_default(), out);
        self.kept_len = 0;
    }

    /// Plays one line, given without its end. An empty line stands for one too long.
    fn play(&mut self, line: &[u8], out: &mut Vec<u8>) {
        if self.ended() {
            return;
        }
        self.lines += 1;
        put_number(out, self.lines);
        out.push(b'\t');
        let (verb, answer) = match Line::read(line) {
            Some(line) => (line.verb, self.call(&line)),
            None => (line, UNREADABLE),
        };
        match answer {
            DONE if verb == b"census" => {
                for (i, &count) in self.counts.iter().enumerate() {
                    if i > 0 {
                        out.push(b'\t');
                    }
                    put_number(out, count);
                }
            }
            DONE => out.extend_from_slice(b"done"),
            MORE => out.extend_from_slice(b"more"),
            WORKED => out.extend_from_slice(b"worked"),
            WAITED => out.extend_from_slice(b"waited"),
            refusal => {
                out.extend_from_slice(b"refused ");
                put_number(out, refusal);
            }
        }
        out.push(b'\n');
    }

    /// Makes the call that a line asks for.
    fn call(&mut self, line: &Line) -> u32 {
        // A start lends what it asks for, as far as the store reaches.
        let (cells, writers) = match (line.verb, line.numbers()) {
            (b"start", &[n, _, m]) => (n.min(MOST_CELLS), m.min(MOST_WRITERS)),
            _ => (self.record[0], self.record[2]),
        };
        let record = &mut self.record;
        let desk = &mut self.desk[..ROW * writers as usize];
        let fields = &mut self.fields[..4 * cells as usize];
        let colours = &mut self.colours[..cells as usize];
        match (line.verb, line.numbers()) {
            (b"start", &[n, g, m]) => start::<0>(record, desk, fields, colours, n, g, m),
            (b"page", &[w, p, s]) => page::<0>(record, desk, fields, colours, w, p, s),
            (b"copy", &[w, r, s]) => copy::<0>(record, desk, fields, colours, w, r, s),
            (b"drop", &[w, r]) => drop::<0>(record, desk, fields, colours, w, r),
            (b"read", &[w, r, f, s]) => read::<0>(record, desk, fields, colours, w, r, f, s),
            (b"store", &[w, r, f, q]) => store::<0>(record, desk, fields, colours, w, r, f, q),
            (b"create", &[w, s]) => create::<0>(record, desk, fields, colours, w, s),
            (b"answer", &[w]) => answer::<0>(record, desk, fields, colours, w),
            (b"next", &[w]) => next::<0>(record, desk, fields, colours, w),
            (b"collect", &[]) => collect::<0>(record, desk, fields, colours),
            (b"census", &[]) => census::<0>(record, desk, fields, colours, &mut self.counts),
            _ => UNREADABLE,
        }
    }
}

/// A line taken apart: the verb and up to four numbers.
struct Line<'a> {
    verb: &'a [u8],
    numbers: [u32; 4],
    len: usize,
}

impl<'a> Line<'a> {
    /// Nothing if the line is too long or has more than four numbers or a wrong one.
    fn read(line: &'a [u8]) -> Option<Line<'a>> {
        if line.len() > LINE {
            return None;
        }
        let mut parted = line.split(|&b| b == b'\t');
        let verb = parted.next()?;
        let mut numbers = [0; 4];
        let mut len = 0;
        for text in parted {
            *numbers.get_mut(len)? = number(text)?;
            len += 1;
        }
        Some(Line { verb, numbers, len })
    }

    fn numbers(&self) -> &[u32] {
        &self.numbers[..self.len]
    }
}

/// A decimal number of 1 to 5 digits.
fn number(text: &[u8]) -> Option<u32> {
    if text.is_empty() || text.len() > 5 {
        return None;
    }
    text.iter().try_fold(0, |value, &b| {
        let digit = b.wrapping_sub(b'0');
        (digit <= 9).then(|| 10 * value + u32::from(digit))
    })
}

/// Writes a number in decimal.
fn put_number(out: &mut Vec<u8>, mut value: u32) {
    let mut digits = [0; 10];
    let mut from = digits.len();
    loop {
        from -= 1;
        digits[from] = b'0' + (value % 10) as u8;
        value /= 10;
        if value == 0 {
            break;
        }
    }
    out.extend_from_slice(&digits[from..]);
}

#[cfg(test)]
mod tests {
    use super::*;

    #[test]
    fn the_player_ends_after_the_last_line_number() {
        let mut player = Player {
            lines: u32::MAX - 1,
            ..Player::default()
        };
        let mut out = Vec::new();
        player.feed(b"census\nstart\t1\t1\t1\n", &mut out);
        player.finish(&mut out);
        assert!(player.ended());
        assert_eq!(out, b"4294967295\trefused 1\n");
    }
}
