//! The lister: inputs of some hundred records, whose whole output is compared.

use crate::case::{hex, smaller_bytes, Case, Family, Tally};
use crate::chance::Chance;
use crate::make;
use std::io::{Read, Write};
use std::process::{Command, Stdio};

#[derive(Clone)]
pub struct Listed {
    /// The words that run the lister.
    words: String,
    records: Vec<Vec<u8>>,
}

/// What the lister prints of an input.
fn printed(words: &str, input: &[u8]) -> Vec<u8> {
    let mut words = words.split_whitespace();
    let program = words.next().expect("--lister takes the words that run the lister");
    let mut lister = Command::new(program)
        .args(words)
        .stdin(Stdio::piped())
        .stdout(Stdio::piped())
        .spawn()
        .expect("the lister runs");
    let (mut into, mut from) = (lister.stdin.take().unwrap(), lister.stdout.take().unwrap());
    let mut output = Vec::new();
    std::thread::scope(|scope| {
        scope.spawn(move || {
            // The lister reads nothing behind a bad record, so the pipe may be closed before all is written.
            let _ = into.write_all(input);
        });
        from.read_to_end(&mut output).expect("the lister's output can be read");
    });
    lister.wait().expect("the lister ends");
    output
}

impl Case for Listed {
    fn family(&self) -> Family {
        Family::Lister
    }

    fn difference(&self, tally: &mut Tally) -> Option<String> {
        let input = self.records.concat();
        let expected = reference::lister::list(&input);
        tally.add(self, 0);
        let output = printed(&self.words, &input);
        (output != expected.as_bytes())
            .then(|| format!("reference:\n{expected}library:\n{}", String::from_utf8_lossy(&output)))
    }

    fn smaller(&self) -> Box<dyn Iterator<Item = Self> + '_> {
        let n = self.records.len();
        let sizes = std::iter::successors(Some(n), |&size| Some(size / 2)).take_while(|&size| size > 0);
        let fewer = sizes.flat_map(move |size| {
            (0..=n - size).step_by(size).map(move |at| [&self.records[..at], &self.records[at + size..]].concat())
        });
        let shorter =
            (0..if n == 1 { 1 } else { 0 }).flat_map(|at| smaller_bytes(&self.records[at]).map(|bytes| vec![bytes]));
        Box::new(fewer.chain(shorter).map(|records| Listed { records, ..self.clone() }))
    }

    fn shown(&self) -> String {
        format!("input {}", hex(&self.records.concat()))
    }
}

pub fn any(chance: &mut Chance, words: &str) -> Listed {
    let records = (0..chance.below(300)).map(|_| {
        let mut section = make::received(chance);
        // A frame goes by section_length, so a section of another length would end the run.
        if section.len() < 3 || chance.often(99) {
            section.resize(section.len().max(7), 0);
            make::reseal(&mut section, true);
        }
        let pid = chance.of(&[0u16, 0x1D00, 8191, 8192, 0xFFFF]);
        let mark = if chance.below(1000) == 0 { [0xA5, 0xA5] } else { [0xA5, 0x5A] };
        [&mark, &pid.to_be_bytes()[..], &section].concat()
    });
    Listed { words: words.to_string(), records: records.collect() }
}
