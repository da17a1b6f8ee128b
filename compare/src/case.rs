//! A case of the comparison: a table and what is asked about it. It can be made smaller part by
//! part, and written as the words of a command line and the bytes of a table file.

use crate::state::Kind;
use crate::tables::Words;
use crate::words::Order;

#[derive(Clone, Debug)]
pub struct Row {
    pub words: Words,
    pub rank: u8,
    pub short: u8,
    /// How the line is written; 0 is plain. See `Row::write`.
    pub style: u8,
}

#[derive(Clone, Debug)]
pub enum Ask {
    Check { nodes: Option<u32>, visits: Option<u32>, require_schedulable: bool },
    Run { events: Vec<u8> },
}

#[derive(Clone, Debug)]
pub struct Case {
    pub rows: Vec<Row>,
    pub kind: Option<Kind>,
    pub order: Option<Order>,
    /// Whether the rows' ranks are given.
    pub ranks: bool,
    pub high_first: bool,
    /// Whether the rows' shortened deadlines are given.
    pub shorten: bool,
    pub ask: Ask,
    /// Words before all other options; what is given again behind them counts.
    pub before: Vec<String>,
    /// Words behind all other options, mostly ones that are not understood.
    pub behind: Vec<String>,
    /// By how many places the options are turned round.
    pub turn: u8,
}

impl Row {
    pub fn plain(words: Words) -> Row {
        Row { words, rank: 0, short: 0, style: 0 }
    }

    /// The bits of the style: 1 tabs and several spaces, 2 leading zeros, 4 a comment behind,
    /// 8 CRLF, 16 a comment line before, 32 an empty line before, 64 spaces in front,
    /// 128 no newline if the row is the last.
    fn write(&self, bytes: &mut Vec<u8>, last: bool) {
        let has = |bit: u8| self.style & bit != 0;
        if has(16) {
            bytes.extend(b"# H 1 1 1 1 0 \xff\x00\x80 #\n");
        }
        if has(32) {
            bytes.extend(b" \t\r\n\n");
        }
        if has(64) {
            bytes.extend(b"  ");
        }
        for (place, word) in self.words.iter().enumerate() {
            if place > 0 {
                bytes.extend(if has(1) { b" \t ".as_slice() } else { b" " });
            }
            if has(2) && place > 0 && word.bytes().all(|sign| sign.is_ascii_digit()) {
                bytes.extend(if place % 2 == 0 { b"00".as_slice() } else { b"0000000000000" });
            }
            bytes.extend(word.bytes());
        }
        if has(4) {
            bytes.extend(b"# 7 and # more");
        }
        if has(8) {
            bytes.push(b'\r');
        }
        if !(last && has(128)) {
            bytes.push(b'\n');
        }
    }
}

impl Case {
    /// A check of the rows without any options.
    pub fn plain(rows: Vec<Row>) -> Case {
        Case {
            rows,
            kind: None,
            order: None,
            ranks: false,
            high_first: false,
            shorten: false,
            ask: Ask::Check { nodes: None, visits: None, require_schedulable: false },
            before: Vec::new(),
            behind: Vec::new(),
            turn: 0,
        }
    }

    /// The table file.
    pub fn table(&self) -> Vec<u8> {
        let mut bytes = Vec::new();
        for (place, row) in self.rows.iter().enumerate() {
            row.write(&mut bytes, place + 1 == self.rows.len());
        }
        bytes
    }

    /// The words of the command line behind the program's name.
    pub fn words(&self) -> Vec<String> {
        let mut options: Vec<Vec<String>> = vec![vec!["-".into()], vec!["--porcelain".into()]];
        let mut option = |name: &str, value: String| options.push(vec![name.into(), value]);
        if let Some(kind) = self.kind {
            let word = match kind {
                Kind::Sporadic => "sporadic",
                Kind::Periodic => "periodic",
            };
            option("--kind", word.into());
        }
        if let Some(order) = self.order {
            let word = match order {
                Order::Fixed => "fixed",
                Order::Deadline => "deadline",
                Order::Laxity => "laxity",
            };
            option("--policy", word.into());
        }
        if self.ranks {
            option("--ranks", list(self.rows.iter().map(|row| row.rank)));
        }
        if self.shorten {
            option("--shorten", list(self.rows.iter().map(|row| row.short)));
        }
        let mut require = false;
        let command = match &self.ask {
            Ask::Check { nodes, visits, require_schedulable } => {
                if let Some(nodes) = nodes {
                    option("--nodes", nodes.to_string());
                }
                if let Some(visits) = visits {
                    option("--visits", visits.to_string());
                }
                require = *require_schedulable;
                "check"
            }
            Ask::Run { events } => {
                option("--events", list(events.iter().copied()));
                "run"
            }
        };
        if require {
            options.push(vec!["--require-schedulable".into()]);
        }
        if self.high_first {
            options.push(vec!["--high-first".into()]);
        }
        let turn = usize::from(self.turn) % options.len();
        options.rotate_left(turn);
        let mut words = vec![command.to_string()];
        words.extend(self.before.iter().cloned());
        words.extend(options.into_iter().flatten());
        words.extend(self.behind.iter().cloned());
        words
    }

    /// A shell command that makes this case.
    pub fn command(&self, program: &str) -> String {
        let mut table = String::new();
        for byte in self.table() {
            match byte {
                b'\n' => table.push_str("\\n"),
                b'%' => table.push_str("%%"),
                b'\\' => table.push_str("\\\\"),
                b' '..=b'~' if byte != b'\'' => table.push(char::from(byte)),
                _ => table.push_str(&format!("\\{byte:03o}")),
            }
        }
        let words: Vec<String> = self.words().iter().map(|word| quoted(word)).collect();
        format!("printf '{table}' | {} {}", quoted(program), words.join(" "))
    }
}

fn list(numbers: impl Iterator<Item = u8>) -> String {
    numbers.map(|number| number.to_string()).collect::<Vec<_>>().join(",")
}

/// The word as a shell reads it, in quotes where it must be.
fn quoted(word: &str) -> String {
    let plain = |sign: char| sign.is_ascii_alphanumeric() || "-_./,+".contains(sign);
    if !word.is_empty() && word.chars().all(plain) {
        word.to_string()
    } else {
        format!("'{}'", word.replace('\'', "'\\''"))
    }
}
