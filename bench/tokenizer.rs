//! A plain tokenizer of scripts: the yardstick of `bench/reading`, which gives the cost of the
//! proved reader as a multiple of this one's.
//!
//!     rustc -O bench/tokenizer.rs && ./tokenizer < SCRIPT
//!
//! It is what one writes in Rust without much thought. Standard input is read whole as text and cut
//! into lines, and these at spaces. Blank lines and comments are passed over. Of each other line
//! the words are matched and the numbers parsed, and it is kept as a value that owns what it names.
//! How many are kept is printed. It knows the forms that the measured scripts have, and judges
//! names, numbers and options less strictly than the reader does.
use std::io;

// What is read is kept, and never looked at again.
#[allow(dead_code)]
struct Line {
    number: usize,
    session: usize,
    command: Command,
}

#[allow(dead_code)]
enum Command {
    Create { image: String, size: u64, object: Option<u64> },
    Write { image: String, at: u64, bytes: Vec<u8> },
    Read { image: String, at: u64, len: u64 },
    Snap { word: String, image: String },
    List,
}

fn number(token: &str) -> Option<u64> {
    token.parse().ok()
}

fn bytes(token: &str) -> Option<Vec<u8>> {
    let pairs = (0..token.len()).step_by(2);
    pairs.map(|i| u8::from_str_radix(token.get(i..i + 2)?, 16).ok()).collect()
}

fn command<'a>(mut tokens: impl Iterator<Item = &'a str>) -> Option<Command> {
    let word = tokens.next()?;
    let mut token = || tokens.next();
    let command = match word {
        "create" => {
            let (image, size) = (token()?.to_string(), number(token()?)?);
            let object = if token() == Some("object") { Some(number(token()?)?) } else { None };
            Command::Create { image, size, object }
        }
        "write" => Command::Write { image: token()?.to_string(), at: number(token()?)?, bytes: bytes(token()?)? },
        "read" => Command::Read { image: token()?.to_string(), at: number(token()?)?, len: number(token()?)? },
        "snap" => Command::Snap { word: token()?.to_string(), image: token()?.to_string() },
        "ls" => Command::List,
        _ => return None,
    };
    tokens.next().is_none().then_some(command)
}

/// The lines that are kept, or the number of the first that isn't understood.
fn lines(text: &str) -> Result<Vec<Line>, usize> {
    let (mut sessions, mut lines) = (Vec::new(), Vec::new());
    for (number, line) in (1..).zip(text.lines()) {
        if line.starts_with('#') {
            continue;
        }
        let mut tokens = line.split(' ').filter(|token| !token.is_empty());
        let Some(name) = tokens.next() else {
            continue;
        };
        if name == "client" {
            sessions.push(tokens.next().ok_or(number)?.to_string());
            continue;
        }
        let session = sessions.iter().position(|it| it == name).ok_or(number)?;
        let command = command(tokens).ok_or(number)?;
        lines.push(Line { number, session, command });
    }
    Ok(lines)
}

fn main() -> io::Result<()> {
    let text = io::read_to_string(io::stdin())?;
    match lines(&text) {
        Ok(lines) => println!("{}", lines.len()),
        Err(number) => println!("line {number} isn't understood"),
    }
    Ok(())
}
