//! The lister: records of a mark, a PID and a section in, lines out.

use crate::field::Part;
use crate::section::{section_length, Kind, LENGTH_END};
use crate::shelf::pid_in_range;
use crate::tables::{self, Body, Title};
use crate::text;
use crate::Refusal;

const MARK: [u8; 2] = [0xA5, 0x5A];
const MARK_AND_PID: usize = 4;

/// The record at the start of `input`: its PID, its section, and the input behind it. None: a wrong mark, or cut.
fn record(input: &[u8]) -> Option<(u32, &[u8], &[u8])> {
    let &[first, second, high, low, _, length_high, length_low, ..] = input else {
        return None;
    };
    if [first, second] != MARK {
        return None;
    }
    let end = MARK_AND_PID + LENGTH_END + section_length(length_high, length_low);
    let section = input.get(MARK_AND_PID..end)?;
    Some((u32::from(u16::from_be_bytes([high, low])), section, &input[end..]))
}

/// Refusal 15, then 1 to 9.
fn read(pid: u32, section: &[u8]) -> Result<Body, Refusal> {
    if !pid_in_range(pid) {
        return Err(15);
    }
    tables::read(section, None)
}

fn quoted(units: &[u16]) -> String {
    let mut shown = String::from("\"");
    for &unit in units {
        match u8::try_from(unit) {
            Ok(plain @ 32..=126) if plain != b'"' && plain != b'\\' => shown.push(char::from(plain)),
            _ => shown.push_str(&format!("\\u{unit:04X}")),
        }
    }
    shown.push('"');
    shown
}

/// What a title shows: its first string, or why there is none.
fn title(section: &[u8], title: &Title) -> String {
    let first = |part: &Part| text::units(part.of(section).ok_or(9)?, 0);
    match title {
        Title::None => "none".to_string(),
        Title::NoStrings => "empty".to_string(),
        Title::Text(part) => match first(part) {
            Ok(units) => quoted(&units),
            Err(refusal) => format!("refused {refusal}"),
        },
    }
}

/// The lines of one section that is not refused.
fn section_lines(record: usize, pid: u32, section: &[u8], body: &Body) -> String {
    let header = match body {
        Body::Mgt(table) => &table.header,
        Body::Tvct(table) => &table.header,
        Body::Rrt(table) => &table.header,
        Body::Eit(table) => &table.header,
        Body::Ett(table) => &table.header,
    };
    let kind: Kind = header.kind;
    let mut lines = format!(
        "{record} pid {pid} {} {} v{} {}/{}",
        kind.word(),
        header.extension,
        header.version,
        header.number,
        header.last
    );
    if let Body::Eit(table) = body {
        lines.push_str(&format!(" events {}", table.events.len()));
        for event in &table.events {
            lines.push_str(&format!(
                "\nevent {} start {} length {} title {}",
                event.event_id,
                event.start_time,
                event.length_in_seconds,
                title(section, &event.title)
            ));
        }
    }
    lines.push('\n');
    lines
}

/// The whole output for a whole input.
pub fn list(input: &[u8]) -> String {
    let mut output = String::from("guide lister\n");
    let mut left = input;
    let mut records = 0;
    while !left.is_empty() {
        let Some((pid, section, behind)) = record(left) else {
            output.push_str(&format!("{records} bad record\n"));
            break;
        };
        match read(pid, section) {
            Ok(body) => output.push_str(&section_lines(records, pid, section, &body)),
            Err(refusal) => output.push_str(&format!("{records} refused {refusal}\n")),
        }
        records += 1;
        left = behind;
    }
    output.push_str(&format!("end {records}\n"));
    output
}

#[cfg(test)]
mod tests {
    use super::*;
    use crate::samples::*;

    fn framed(pid: u16, section: &[u8]) -> Vec<u8> {
        [&MARK, &pid.to_be_bytes()[..], section].concat()
    }

    fn empty_eit(source: u8, version: u8) -> Vec<u8> {
        let mut bytes = smallest_section(Kind::Eit);
        bytes[4] = source;
        bytes[5] = 0xC1 | version << 1;
        seal(&mut bytes);
        bytes
    }

    #[test]
    fn the_example() {
        let input =
            [framed(0x1D00, &eit_of(&[(5, 1000, 1800, &tea(), &[])])), framed(0x1D00, &empty_eit(8, 3))].concat();
        assert_eq!(
            list(&input),
            "guide lister\n0 pid 7424 eit 7 v3 0/0 events 1\nevent 5 start 1000 length 1800 title \"Tea\"\n\
             1 pid 7424 eit 8 v3 0/0 events 0\nend 2\n"
        );
        assert_eq!(list(&[]), "guide lister\nend 0\n");
    }

    #[test]
    fn bad_records_end_the_run() {
        let good = framed(1, &empty_eit(8, 3));
        let line = "0 pid 1 eit 8 v3 0/0 events 0\n";
        for length in 1..good.len() {
            let input = [&good[..], &good[..length], &[]].concat();
            assert_eq!(list(&input), format!("guide lister\n{line}1 bad record\nend 1\n"), "{length}");
        }
        let mut wrong = good.clone();
        wrong[1] = 0x5B;
        let input = [wrong, good].concat();
        assert_eq!(list(&input), "guide lister\n0 bad record\nend 0\n");
    }

    #[test]
    fn refused_records_go_on() {
        let mut broken = empty_eit(8, 3);
        broken[3] = 1;
        let input = [
            framed(8192, &broken),
            framed(8191, &broken),
            framed(0, &[0, 0, 0]),
            framed(0, &[0xCB, 0xF0, 0]),
            framed(0xFFFF, &[0, 0, 0]),
            framed(0, &smallest_section(Kind::Mgt)),
            framed(0, &smallest_section(Kind::Tvct)),
            framed(0, &smallest_section(Kind::Rrt)),
            framed(0, &smallest_section(Kind::Ett)),
        ]
        .concat();
        assert_eq!(
            list(&input),
            "guide lister\n0 refused 15\n1 refused 6\n2 refused 2\n3 refused 4\n4 refused 15\n5 pid 0 mgt 0 v0 0/0\n\
             6 pid 0 tvct 0 v0 0/0\n7 pid 0 rrt 0 v0 0/0\n8 pid 0 ett 0 v0 0/0\nend 9\n"
        );
        let cut = &framed(8192, &broken)[..10];
        assert_eq!(list(cut), "guide lister\n0 bad record\nend 0\n");
    }

    #[test]
    fn titles() {
        let marks = text(&[&[(0, 0, b" ~\x7f\"\\\x1f"), (0, 0x3F, &[0xD8, 0x3D, 0x26, 0x3A])], &[(9, 9, b"")]]);
        let unread = text(&[&[(1, 0xFF, b"")], &[(0, 0, b"a")]]);
        let odd = text(&[&[(0, 0x3F, b"a")]]);
        let no_segments = text(&[&[]]);
        let input = framed(
            5,
            &eit_of(&[
                (0, 0, 0, &[], &[]),
                (1, 0, 0, &[0], &[]),
                (2, 0, 0, &marks, &advisory()),
                (3, 0, 0, &unread, &[]),
                (4, 0, 0, &odd, &[]),
                (16383, 4_294_967_295, 1_048_575, &no_segments, &[]),
            ]),
        );
        assert_eq!(
            list(&input),
            "guide lister\n0 pid 5 eit 7 v3 0/0 events 6\n\
             event 0 start 0 length 0 title none\n\
             event 1 start 0 length 0 title empty\n\
             event 2 start 0 length 0 title \" ~\\u007F\\u0022\\u005C\\u001F\\uD83D\\u263A\"\n\
             event 3 start 0 length 0 title refused 10\n\
             event 4 start 0 length 0 title refused 11\n\
             event 16383 start 4294967295 length 1048575 title \"\"\n\
             end 1\n"
        );
    }
}
