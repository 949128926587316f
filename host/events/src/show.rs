//! A run beside the text that caused it.

use crate::notation::{Line, RECORD};
use std::fmt::Write;

/// Each line of the event program beside its text. The hex column shows the byte of an accepted read, since BCD is read
/// so. A run that was split has its text beside its first line.
pub fn listing(lines: &[Line], printed: &[u8]) -> Result<String, String> {
    let printed = std::str::from_utf8(printed).map_err(|_| "the event program printed no text".to_owned())?;
    let mut printed = printed.lines();
    let mut text = format!("{:>6} {:>6} {:>4} {:>3} {:>3}  {:>3}\n", "record", "answer", "byte", "IRQ", "SQW", "hex");
    for line in lines {
        if line.bytes.is_empty() {
            push(&mut text, "", line.text);
        }
        for (number, record) in line.bytes.chunks(RECORD).enumerate() {
            let told = printed.next().ok_or("the event program printed too few lines")?;
            let columns: Vec<&str> = told.split(' ').collect();
            let &[record_number, answer, byte, irq, sqw] = columns.as_slice() else {
                return Err(format!("the event program printed: {told}"));
            };
            let hex = match byte.parse::<u8>() {
                Ok(byte) if record.len() == RECORD && record[0] == 0 && answer == "0" => format!("{byte:02x}"),
                _ => String::new(),
            };
            let left = format!("{record_number:>6} {answer:>6} {byte:>4} {irq:>3} {sqw:>3}  {hex:>3}");
            push(&mut text, &left, if number == 0 { line.text } else { "" });
        }
    }
    match printed.next() {
        None => Ok(text),
        Some(told) => Err(format!("the event program printed one line more: {told}")),
    }
}

fn push(text: &mut String, left: &str, right: &str) {
    let line = format!("{left:31}  {right}");
    let _ = writeln!(text, "{}", line.trim_end());
}

#[cfg(test)]
mod tests {
    use super::*;
    use crate::notation::lines;

    #[test]
    fn lines_stand_beside_their_text() {
        let text = b"# start\nwrite hours 0x59\n\nread hours # back\nrun 65536\nread 64\npart 0\n";
        let printed = b"1 0 0 0 0\n2 0 89 0 0\n3 0 0 1 0\n4 0 0 0 1\n5 2 255 0 0\n6 1 0 0 0\n";
        let expected = "record answer byte IRQ SQW  hex
                                 # start
     1      0    0   0   0       write hours 0x59

     2      0   89   0   0   59  read hours # back
     3      0    0   1   0       run 65536
     4      0    0   0   1
     5      2  255   0   0       read 64
     6      1    0   0   0       part 0
";
        assert_eq!(listing(&lines(text).unwrap(), printed).unwrap(), expected);
    }

    #[test]
    fn a_wrong_number_of_lines_is_told() {
        let events = lines(b"run 1\nrun 2").unwrap();
        assert!(listing(&events, b"1 0 0 0 0\n").unwrap_err().contains("too few"));
        assert!(listing(&events, b"1 0 0 0 0\n2 0 0 0 0\n3 0 0 0 0\n").unwrap_err().contains("more"));
        assert!(listing(&events, b"1 0 0\n").unwrap_err().contains("printed: 1 0 0"));
    }
}
