//! A job file in readable form, as far as it goes: a damaged one too. And a system as cases have it.

use std::fmt::Write;

use crate::columns::Columns;
use crate::running::parted;

pub fn readable(file: &[u8]) -> String {
    let mut text = format!("{} bytes\n", file.len());
    let mut rest = file;
    for (name, size, a_line) in [("input system", 16, 8), ("output system", 16, 8), ("matrix", 2, 4), ("word", 1, 32)] {
        let Some(count) = rest.get(..2).map(|bytes| u16::from_le_bytes([bytes[0], bytes[1]]) as usize) else {
            writeln!(text, "{name}: the file ends before its count, at byte {}", file.len() - rest.len()).unwrap();
            return text;
        };
        rest = &rest[2..];
        writeln!(text, "{name}: count {count}").unwrap();
        let length = (size * count).min(rest.len());
        write_section(&mut text, &rest[..length], size == 1, a_line);
        if length < size * count {
            writeln!(text, "the file ends within this section, {} bytes short", size * count - length).unwrap();
            return text;
        }
        rest = &rest[length..];
    }
    writeln!(text, "{} bytes follow", rest.len()).unwrap();
    text
}

/// The section's numbers, so many a line.
fn write_section(text: &mut String, section: &[u8], bytes: bool, a_line: usize) {
    let numbers: Vec<String> = if bytes {
        section.iter().map(|n| n.to_string()).collect()
    } else {
        section.chunks_exact(2).map(|pair| i16::from_le_bytes([pair[0], pair[1]]).to_string()).collect()
    };
    for line in numbers.chunks(a_line) {
        writeln!(text, "  {}", line.join(" ")).unwrap();
    }
}

/// A system by its name, or with its rows.
pub fn write_system(text: &mut String, side: &str, name: u8, system: &Columns) {
    writeln!(text, "{side} system {}: count {}", name as char, system.count).unwrap();
    if name == b'S' {
        system.rows().iter().for_each(|row| writeln!(text, "  {}", parted(row)).unwrap());
        let used = system.used();
        let unused = system.runs.iter().any(|run| run[used..].iter().any(|&n| n != 0));
        *text += if unused { "  and numbers of digits that it hasn't got\n" } else { "" };
    }
}
