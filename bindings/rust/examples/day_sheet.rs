// A day sheet of a capture: the same program as examples/c/day_sheet.c, and it prints the same. It collects the guide and prints the programmes of
// each channel, with "not yet heard" for what is missing.
use guide::{judge, Descriptors, Eit, Key, Kind, Mgt, Rating, Refusal, Rrt, Shelf, Status, Text, Title, Tvct};

const BASE_PID: u16 = 0x1FFB;
const EIT_0: u16 = 0x0100;

struct Sheet {
    shelf: Shelf,
    /// The tables whose keys the capture has taught so far.
    first: [Option<Key>; 3],
}

/// A channel's line, and the key of its programmes where the MGT has told their PID.
struct Programmes {
    channel: String,
    key: Option<Key>,
}

impl Sheet {
    /// The sections of a table that is complete; none where it is not.
    fn sections(&self, key: Option<Key>) -> Option<Vec<&[u8]>> {
        let key = key?;
        match self.shelf.status(key) {
            Ok(Status::Complete(n)) => (0..n).map(|number| self.shelf.fetch(key, number as u8).ok()).collect(),
            _ => None,
        }
    }

    /// What a section teaches before it is delivered: the keys of the first MGT, TVCT and RRT.
    fn learn(&mut self, pid: u16, section: &[u8]) {
        let Ok(header) = judge(section) else { return };
        let (place, quota) = match header.kind {
            Kind::Mgt => (0, 1),
            Kind::Tvct => (1, 4),
            Kind::Rrt => (2, 1),
            _ => return,
        };
        if pid != BASE_PID || !header.current || self.first[place].is_some() {
            return;
        }
        let key = Key { pid, kind: header.kind, extension: header.extension };
        if self.shelf.open(key, quota).is_ok() {
            self.first[place] = Some(key);
        }
    }

    fn programmes(&self) -> Option<Vec<Programmes>> {
        let mgt = self.sections(self.first[0]).and_then(|sections| Mgt::read(sections[0]).ok());
        let pid = mgt.and_then(|mgt| mgt.tables().find(|table| table.table_type == EIT_0).map(|table| table.pid));
        let mut all = Vec::new();
        for section in self.sections(self.first[1])? {
            for channel in Tvct::read(section).ok()?.channels() {
                let key = pid.map(|pid| Key { pid, kind: Kind::Eit, extension: channel.source_id });
                all.push(Programmes {
                    channel: format!("{}.{} {}", channel.major, channel.minor, channel.name()),
                    key,
                });
            }
        }
        Some(all)
    }

    /// Each dimension that a programme is rated in, by the words of the region.
    fn ratings(&self, descriptors: &Descriptors) -> String {
        let Some(rrt) = self.sections(self.first[2]).and_then(|sections| Rrt::read(sections[0]).ok()) else {
            return ", rating not yet heard".to_string();
        };
        let mut words = String::new();
        for (number, dimension) in rrt.dimensions().enumerate() {
            if let Rating::Value(value) = descriptors.rating(rrt.region, number as u8) {
                let text = dimension.values().nth(value.into()).map(|value| value.short);
                words += &format!(", {}: {}", shown(Some(dimension.name), number), shown(text, value.into()));
            }
        }
        if words.is_empty() {
            words += ", not rated";
        }
        words
    }

    fn print(&self, channel: &Programmes) {
        println!("{}", channel.channel);
        let Some(sections) = self.sections(channel.key) else {
            return println!("  not yet heard");
        };
        let tables: Vec<Eit> = sections.into_iter().filter_map(|section| Eit::read(section).ok()).collect();
        if tables.iter().all(Eit::is_empty) {
            println!("  no programmes");
        }
        for event in tables.iter().flat_map(Eit::events) {
            println!(
                "  {} for {} s: {}{}",
                event.start_time,
                event.length,
                title(event.title),
                self.ratings(&event.descriptors)
            );
        }
    }
}

/// The first string of a text, or the number that stands for it.
fn shown(text: Option<Text>, number: usize) -> String {
    text.and_then(|text| text.string(0).ok()).unwrap_or_else(|| number.to_string())
}

fn title(title: Title) -> String {
    match title {
        Title::None => "no title".to_string(),
        Title::NoStrings => "a title without text".to_string(),
        Title::Text(text) => match text.string(0) {
            Ok(words) => format!("\"{words}\""),
            Err(refusal) => format!("a title that is not readable ({})", refusal.number()),
        },
    }
}

/// The records of a capture: the mark A5 5A, the PID in two bytes, and the section.
fn records(mut capture: &[u8]) -> Vec<(u16, &[u8])> {
    let mut all = Vec::new();
    while let &[0xA5, 0x5A, high, low, _, length_high, length_low, ..] = capture {
        let end = 7 + (usize::from(length_high & 0x0F) << 8 | usize::from(length_low));
        let Some(section) = capture.get(4..end) else { break };
        all.push((u16::from_be_bytes([high, low]), section));
        capture = &capture[end..];
    }
    all
}

fn main() -> Result<(), Box<dyn std::error::Error>> {
    let name = std::env::args().nth(1).ok_or("usage: day_sheet FILE")?;
    let capture = std::fs::read(name)?;
    let mut sheet = Sheet { shelf: Shelf::new(16, 64)?, first: [None; 3] };
    // Stations repeat their tables: once for the keys, and once more for the programmes.
    for _ in 0..2 {
        for key in sheet.programmes().into_iter().flatten().filter_map(|programmes| programmes.key) {
            match sheet.shelf.open(key, 4) {
                // Two channels may have one source.
                Ok(()) | Err(Refusal::AlreadyWatched) => {}
                Err(refusal) => return Err(refusal.into()),
            }
        }
        for (pid, section) in records(&capture) {
            sheet.learn(pid, section);
            // A section that is damaged or not watched is refused, and nothing changes.
            let _ = sheet.shelf.deliver(pid, section);
        }
    }
    match sheet.programmes() {
        None => println!("the channels are not yet heard"),
        Some(channels) => channels.iter().for_each(|channel| sheet.print(channel)),
    }
    Ok(())
}
