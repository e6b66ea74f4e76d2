//! The program: a script of lines in, one line of answer for each.

use crate::store::{Refusal, Store};

/// The longest script that is read; a longer one is a single bad line.
pub const MAX_SCRIPT: usize = 65_536;

/// The entries that the program has room for, and the buckets in each of its two
/// buffers: the largest capacity and the largest size of its store. The limits of
/// the library are higher.
pub const ROOM: u32 = 4096;

#[derive(Clone, Copy, Debug, PartialEq, Eq)]
pub enum Command {
    Start { capacity: u32, size: u32 },
    Add { key: u32, value: u32 },
    Update { key: u32, value: u32 },
    Delete { key: u32 },
    Find { key: u32 },
    Resize { size: u32 },
    Step,
    Scan { cursor: u32 },
}

impl Command {
    /// Reads one line without its line feed; `None` is a bad line.
    pub fn parse(line: &[u8]) -> Option<Command> {
        // Cut at every single space: a space too many leaves an empty part,
        // which is neither a letter nor a number.
        let parts: Vec<&[u8]> = line.split(|&byte| byte == b' ').collect();
        Some(match parts[..] {
            [b"N", capacity, size] => Command::Start {
                capacity: number(capacity)?,
                size: number(size)?,
            },
            [b"A", key, value] => Command::Add {
                key: number(key)?,
                value: number(value)?,
            },
            [b"V", key, value] => Command::Update {
                key: number(key)?,
                value: number(value)?,
            },
            [b"D", key] => Command::Delete { key: number(key)? },
            [b"F", key] => Command::Find { key: number(key)? },
            [b"R", size] => Command::Resize {
                size: number(size)?,
            },
            [b"S"] => Command::Step,
            [b"C", cursor] => Command::Scan {
                cursor: number(cursor)?,
            },
            _ => return None,
        })
    }
}

/// Reads 1 to 10 decimal digits that fit into 32 bits. The standard parser
/// would not do: it takes a leading plus sign and any number of zeros.
fn number(text: &[u8]) -> Option<u32> {
    if !(1..=10).contains(&text.len()) || !text.iter().all(u8::is_ascii_digit) {
        return None;
    }
    let value = text
        .iter()
        .fold(0, |value: u64, digit| 10 * value + u64::from(digit - b'0'));
    u32::try_from(value).ok()
}

/// The numbers that follow the answer 0, or the refusal.
pub type Reply = Result<Vec<u32>, Refusal>;

/// Appends the reply's line, line feed included.
pub fn write_reply(reply: &Reply, line: &mut Vec<u8>) {
    match reply {
        Ok(results) => {
            line.push(b'0');
            for &result in results {
                line.push(b' ');
                write_number(result, line);
            }
        }
        Err(refusal) => write_number(*refusal as u32, line),
    }
    line.push(b'\n');
}

/// Digits by hand: the large scripts write tens of millions of numbers.
fn write_number(mut number: u32, line: &mut Vec<u8>) {
    let mut digits = [0; 10];
    let mut first = digits.len();
    loop {
        first -= 1;
        digits[first] = b'0' + (number % 10) as u8;
        number /= 10;
        if number == 0 {
            break;
        }
    }
    line.extend_from_slice(&digits[first..]);
}

/// The program between two lines. No store yet stands for the state of zeros.
#[derive(Default)]
pub struct Program {
    store: Option<Store>,
}

impl Program {
    pub fn store(&self) -> Option<&Store> {
        self.store.as_ref()
    }

    pub fn run(&mut self, command: Command) -> Reply {
        if let Command::Start { capacity, size } = command {
            // A refused start leaves through `?` and keeps the old store.
            self.store = Some(start(capacity, size)?);
            return Ok(Vec::new());
        }
        let store = self.store.as_mut().ok_or(Refusal::BadState)?;
        let mut results = Vec::new();
        match command {
            Command::Start { .. } => unreachable!("answered above"),
            Command::Add { key, value } => store.add(key, value)?,
            Command::Update { key, value } => store.update(key, value)?,
            Command::Delete { key } => store.delete(key)?,
            Command::Find { key } => results.push(store.find(key)?),
            // A size that the buffers have no room for is refused there.
            Command::Resize { size } => store.resize(size)?,
            Command::Step => {
                let step = store.step()?;
                results.extend([step.moved as u32, u32::from(step.moving)]);
            }
            Command::Scan { cursor } => {
                let scan = store.scan(cursor);
                results.extend([scan.next, scan.entries.len() as u32]);
                results.extend(
                    scan.entries
                        .iter()
                        .flat_map(|entry| [entry.key, entry.value]),
                );
            }
        }
        Ok(results)
    }
}

/// Starts a store in the program's buffers. What does not fit is outside the
/// program's limits, and no bad state.
fn start(capacity: u32, size: u32) -> Result<Store, Refusal> {
    if capacity > ROOM || size > ROOM {
        return Err(Refusal::BadSize);
    }
    Store::start(capacity, size, ROOM)
}

/// One line of a script, read, and its reply.
pub struct Exchange {
    /// `None` for a bad line.
    pub command: Option<Command>,
    pub reply: Reply,
}

/// The lines of a script without their line feeds; the last may lack its own.
pub fn lines(script: &[u8]) -> impl Iterator<Item = &[u8]> {
    script
        .split_inclusive(|&byte| byte == b'\n')
        .map(|line| line.strip_suffix(b"\n").unwrap_or(line))
}

/// Runs a script line by line, each line only when its reply is asked for, so
/// that a large output never has to be held as a whole.
pub fn replies(script: &[u8]) -> impl Iterator<Item = Exchange> + '_ {
    // A script that is too long is answered like one empty line.
    let script = if script.len() > MAX_SCRIPT {
        b"\n"
    } else {
        script
    };
    let mut program = Program::default();
    lines(script).map(move |line| {
        let command = Command::parse(line);
        let reply = command.map_or(Err(Refusal::BadLine), |command| program.run(command));
        Exchange { command, reply }
    })
}

/// The whole answer to a script.
pub fn answer(script: &[u8]) -> Vec<u8> {
    let mut answer = Vec::new();
    for exchange in replies(script) {
        write_reply(&exchange.reply, &mut answer);
    }
    answer
}

#[cfg(test)]
mod tests {
    use super::*;
    use crate::cases::{self, Answer};
    use crate::walk::Witness;

    #[test]
    fn fixed_scripts_have_their_known_answers() {
        for case in cases::all() {
            let (Answer::ByHand(known) | Answer::Computed(known)) = case.answer else {
                continue;
            };
            let answer = answer(&case.script);
            let shown = answer.escape_ascii();
            assert!(answer == known, "{}: {shown}", case.name);
        }
    }

    /// The script that the crate of the program has for its own run, and the answers
    /// beside it, line by line.
    #[test]
    fn the_own_script_of_the_program_has_its_answers() {
        let script = include_bytes!("../../../crates/script_main/stdin");
        let known = include_bytes!("../../../crates/script_main/stdout");
        assert_eq!(lines(script).count(), lines(known).count());
        let mut witness = Witness::default();
        let exchanges = replies(script).zip(lines(script)).zip(lines(known));
        for (number, ((exchange, line), known)) in (1..).zip(exchanges) {
            let mut answer = Vec::new();
            write_reply(&exchange.reply, &mut answer);
            let (line, shown) = (line.escape_ascii(), answer.escape_ascii());
            assert!(
                answer == [known, b"\n"].concat(),
                "line {number}, {line}: {shown}"
            );
            witness.observe(&exchange).unwrap();
        }
        let tally = witness.tally();
        assert!(tally.grown > 15 && tally.grown_at_once > 7, "{tally:?}");
        assert_eq!(tally.cramped, 1);
    }

    #[test]
    fn numbers() {
        assert_eq!(number(b"0"), Some(0));
        assert_eq!(number(b"0000000001"), Some(1));
        assert_eq!(number(b"4294967295"), Some(u32::MAX));
        for text in [
            "",
            "+1",
            "-1",
            "4294967296",
            "9999999999",
            "00000000001",
            "1a",
        ] {
            assert_eq!(number(text.as_bytes()), None, "{text}");
        }
    }

    #[test]
    fn numbers_are_written_as_they_are_read() {
        for value in [0, 9, 10, 99, 4096, 1_000_000_000, u32::MAX] {
            let mut text = Vec::new();
            write_number(value, &mut text);
            assert_eq!(text, value.to_string().into_bytes());
        }
    }

    #[test]
    fn lines_end_with_line_feeds_only() {
        let cut = |script: &'static [u8]| lines(script).collect::<Vec<_>>();
        assert!(cut(b"").is_empty());
        assert_eq!(cut(b"\n"), [b""]);
        assert_eq!(cut(b"S"), cut(b"S\n"));
        assert_eq!(cut(b"S\n\n"), [&b"S"[..], b""]);
        assert_eq!(cut(b"S\rS"), [b"S\rS"]);
    }
}
