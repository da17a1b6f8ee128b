//! Table files: reading one, and what is wrong with its lines.

use crate::task::{Criticality, Draft, Table, Task};

/// The longest file, in bytes.
pub const LONGEST_FILE: usize = 16_777_216;

/// Decimal digits only, leading zeros allowed, at most `most`.
pub fn number(word: &[u8], most: u32) -> Option<u32> {
    if word.is_empty() {
        return None;
    }
    let mut value = 0u32;
    for &sign in word {
        if !sign.is_ascii_digit() {
            return None;
        }
        value = value * 10 + u32::from(sign - b'0');
        if value > most {
            return None;
        }
    }
    Some(value)
}

/// Reads a table file. Every line is looked at; the faults come in the order of their lines.
pub fn read(bytes: &[u8]) -> Result<Table, Vec<String>> {
    if bytes.len() > LONGEST_FILE {
        return Err(vec![format!("a file of more than {LONGEST_FILE} bytes")]);
    }
    let mut draft = Draft::new();
    let mut faults = Vec::new();
    for (index, line) in bytes.split(|&byte| byte == b'\n').enumerate() {
        if let Err(fault) = read_line(line, &mut draft) {
            faults.push(format!("line {}: {fault}", index + 1));
        }
    }
    if faults.is_empty() {
        Ok(draft.seal())
    } else {
        Err(faults)
    }
}

fn read_line(line: &[u8], draft: &mut Draft) -> Result<(), String> {
    let said = line.split(|&byte| byte == b'#').next().unwrap_or_default();
    let words: Vec<&[u8]> = said
        .split(|byte| matches!(byte, b' ' | b'\t' | b'\r'))
        .filter(|word| !word.is_empty())
        .collect();
    if words.is_empty() {
        return Ok(());
    }
    let [first, figures @ ..] = words.as_slice() else { unreachable!("there is a word") };
    if figures.len() != 5 {
        return Err(format!("found {} words, expected 6", words.len()));
    }
    let criticality = match *first {
        b"H" => Criticality::High,
        b"L" => Criticality::Low,
        other => return Err(format!("found {:?}, expected H or L", text(other))),
    };
    let mut read = [0; 5];
    for (place, word) in read.iter_mut().zip(figures) {
        *place = number(word, 255)
            .ok_or_else(|| format!("found {:?}, expected a number from 0 to 255", text(word)))?
            as u8;
    }
    let [period, deadline, low_budget, high_budget, offset] = read;
    let task = Task { criticality, period, deadline, low_budget, high_budget, offset };
    draft.add(task).map_err(|refusal| format!("refused with {}", refusal.number()))
}

fn text(word: &[u8]) -> String {
    String::from_utf8_lossy(word).into_owned()
}
