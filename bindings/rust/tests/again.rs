//! What is read of a section and written again has its old bytes, for every EIT and ETT of the repository's examples.
use guide::{judge, write_eit, write_ett, Eit, Ett, Given, Kind, NewEvent, Title};

/// The sections in a capture of records that the lister reads.
fn sections(capture: &[u8]) -> Vec<&[u8]> {
    let mut all = Vec::new();
    let mut at = 4;
    while at + 3 <= capture.len() {
        let end = at + 3 + (usize::from(capture[at + 1] & 0x0F) << 8 | usize::from(capture[at + 2]));
        all.push(&capture[at..end]);
        at = end + 4;
    }
    all
}

fn eit_again(section: &[u8]) -> Vec<u8> {
    let eit = Eit::read(section).unwrap();
    let events: Vec<NewEvent> = eit
        .events()
        .map(|event| NewEvent {
            id: event.id,
            start_time: event.start_time,
            etm_location: event.etm_location,
            length: event.length,
            title: match event.title {
                Title::None => b"",
                Title::NoStrings => b"\0",
                Title::Text(text) => text.field(),
            },
            descriptors: event.descriptors.list(),
        })
        .collect();
    write_eit(&Given::from(eit.header), &events).unwrap()
}

#[test]
fn examples_are_written_again() {
    let mut again = 0;
    for name in ["two_eits", "all_kinds", "half_heard"] {
        let capture = std::fs::read(format!("{}/../../examples/{name}.bin", env!("CARGO_MANIFEST_DIR"))).unwrap();
        for section in sections(&capture) {
            match judge(section).map(|header| header.kind) {
                Ok(Kind::Eit) => assert_eq!(eit_again(section), section),
                Ok(Kind::Ett) => {
                    let ett = Ett::read(section).unwrap();
                    assert_eq!(write_ett(&Given::from(ett.header), ett.etm_id, ett.text.field()).unwrap(), section);
                }
                _ => continue,
            }
            again += 1;
        }
    }
    assert!(again >= 7, "{again}");
}
