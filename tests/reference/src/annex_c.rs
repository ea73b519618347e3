//! Annex C of 002: compressed segments. The decoder is built from the printed lists (prior, symbol, code); the
//! printed decode tables are only held against it, in a test.

use std::sync::OnceLock;

const TYPE_1_CODES: &str = include_str!("../../../data/annex-c-1-codes.txt");
const TYPE_2_CODES: &str = include_str!("../../../data/annex-c-2-codes.txt");

const TERMINATE: u8 = 0;
const ESCAPE: u8 = 27;
const PRIORS: usize = 128;

/// What one bit leads to, in the codes of one prior.
#[derive(Clone, Copy, Debug, PartialEq, Eq)]
enum Step {
    /// No printed code begins like this. The lists are complete, so this stays nowhere; a test says so.
    Nowhere,
    On(usize),
    Symbol(u8),
}

/// The codes of one prior; each node has a step for bit 0 and for bit 1, node 0 is the start.
#[derive(Clone, Debug)]
struct Codes(Vec<[Step; 2]>);

impl Codes {
    fn new() -> Codes {
        Codes(vec![[Step::Nowhere; 2]])
    }

    fn add(&mut self, code: &[usize], symbol: u8) {
        let mut node = 0;
        for (place, &bit) in code.iter().enumerate() {
            if place + 1 == code.len() {
                self.0[node][bit] = Step::Symbol(symbol);
            } else if let Step::On(next) = self.0[node][bit] {
                node = next;
            } else {
                let next = self.0.len();
                self.0.push([Step::Nowhere; 2]);
                self.0[node][bit] = Step::On(next);
                node = next;
            }
        }
    }
}

/// One printed line: prior, symbol and code.
fn line(line: &str) -> Option<(usize, u8, Vec<usize>)> {
    let mut words = line.split_whitespace();
    let prior = words.next()?.parse().ok().filter(|&prior| prior < PRIORS)?;
    let symbol = words.next()?.parse().ok().filter(|&symbol: &u8| usize::from(symbol) < PRIORS)?;
    let code = words.next()?.chars().map(|bit| bit.to_digit(2).map(|bit| bit as usize)).collect::<Option<_>>()?;
    Some((prior, symbol, code))
}

/// The codes of all priors of one type.
pub struct Decoder(Vec<Codes>);

pub fn type_1() -> &'static Decoder {
    static DECODER: OnceLock<Decoder> = OnceLock::new();
    DECODER.get_or_init(|| Decoder::from_list(TYPE_1_CODES))
}

pub fn type_2() -> &'static Decoder {
    static DECODER: OnceLock<Decoder> = OnceLock::new();
    DECODER.get_or_init(|| Decoder::from_list(TYPE_2_CODES))
}

impl Decoder {
    fn from_list(list: &str) -> Decoder {
        let mut priors = vec![Codes::new(); PRIORS];
        for (prior, symbol, code) in list.lines().filter_map(line) {
            priors[prior].add(&code, symbol);
        }
        for codes in &mut priors {
            // Where escape's `1` is all that is printed, both bits mean escape.
            if codes.0[..] == [[Step::Nowhere, Step::Symbol(ESCAPE)]] {
                codes.0[0][0] = Step::Symbol(ESCAPE);
            }
        }
        Decoder(priors)
    }

    /// The next coded symbol after `prior`; none where the bits end early.
    fn symbol(&self, prior: u8, bits: &mut Bits) -> Option<u8> {
        let codes = self.0.get(usize::from(prior))?;
        let mut node = 0;
        loop {
            match codes.0[node][bits.next()?] {
                Step::Nowhere => return None,
                Step::On(next) => node = next,
                Step::Symbol(symbol) => return Some(symbol),
            }
        }
    }

    /// The units of one segment; none where it is broken text.
    pub fn decode(&self, bytes: &[u8]) -> Option<Vec<u16>> {
        let mut bits = Bits { bytes, place: 0 };
        let mut units = Vec::new();
        let mut prior = 0;
        loop {
            let unit = match self.symbol(prior, &mut bits)? {
                TERMINATE => return if bits.left() < 8 { Some(units) } else { None },
                ESCAPE => bits.raw().filter(|&raw| raw <= 127)?,
                symbol => symbol,
            };
            units.push(u16::from(unit));
            // The escape itself is never a prior: the raw character is (section C1.1's q, p, a).
            prior = unit;
        }
    }
}

/// The bits of a segment, high bit first.
struct Bits<'a> {
    bytes: &'a [u8],
    place: usize,
}

impl Bits<'_> {
    fn left(&self) -> usize {
        self.bytes.len() * 8 - self.place
    }

    fn next(&mut self) -> Option<usize> {
        let byte = *self.bytes.get(self.place / 8)?;
        let bit = byte >> (7 - self.place % 8) & 1;
        self.place += 1;
        Some(usize::from(bit))
    }

    /// An uncompressed character: 8 bits (section C1.1).
    fn raw(&mut self) -> Option<u8> {
        let mut value = 0;
        for _ in 0..8 {
            value = value << 1 | self.next()? as u8;
        }
        Some(value)
    }
}

#[cfg(test)]
pub(crate) mod tests {
    use super::*;
    use std::collections::BTreeMap;

    type Code = Vec<usize>;

    fn lists() -> [(&'static str, usize, Vec<u8>); 2] {
        [
            (TYPE_1_CODES, 913, table(include_str!("../../../data/annex-c-1-decode.txt"))),
            (TYPE_2_CODES, 832, table(include_str!("../../../data/annex-c-2-decode.txt"))),
        ]
    }

    fn table(text: &str) -> Vec<u8> {
        let mut bytes = Vec::new();
        for line in text.lines() {
            let (offset, values) = line.split_once(':').unwrap();
            assert_eq!(offset.trim().parse(), Ok(bytes.len()));
            bytes.extend(values.split_whitespace().map(|value| value.parse::<u8>().unwrap()));
        }
        bytes
    }

    /// All codes of a prior's printed tree, walked from its root.
    fn tree(table: &[u8], prior: usize) -> BTreeMap<Code, u8> {
        let root = usize::from(table[2 * prior]) << 8 | usize::from(table[2 * prior + 1]);
        let mut codes = BTreeMap::new();
        let mut open: Vec<(usize, Code)> = vec![(0, vec![])];
        while let Some((node, code)) = open.pop() {
            assert!(code.len() < 16, "a walk that does not end");
            for bit in 0..2 {
                let child = table[root + 2 * node + bit];
                let mut code = code.clone();
                code.push(bit);
                if child & 0x80 != 0 {
                    codes.insert(code, child & 0x7F);
                } else {
                    open.push((usize::from(child), code));
                }
            }
        }
        codes
    }

    /// All codes of a prior as the decoder has them.
    fn built(codes: &Codes) -> BTreeMap<Code, u8> {
        let mut all = BTreeMap::new();
        let mut open: Vec<(usize, Code)> = vec![(0, vec![])];
        while let Some((node, code)) = open.pop() {
            for bit in 0..2 {
                let mut code = code.clone();
                code.push(bit);
                match codes.0[node][bit] {
                    Step::Nowhere => panic!("code {code:?} leads nowhere"),
                    Step::On(next) => open.push((next, code)),
                    Step::Symbol(symbol) => {
                        all.insert(code, symbol);
                    }
                }
            }
        }
        all
    }

    #[test]
    fn list_and_tree_agree() {
        assert_eq!(lists()[0].2.len(), 1940);
        assert_eq!(lists()[1].2.len(), 1782);
        for (list, count, table) in lists() {
            assert_eq!(list.lines().count(), count);
            let printed: Vec<_> = list.lines().map(|text| line(text).unwrap()).collect();
            let decoder = Decoder::from_list(list);
            let mut leaves = 0;
            for prior in 0..PRIORS {
                let walked = tree(&table, prior);
                leaves += walked.len();
                let root = usize::from(table[2 * prior]) << 8 | usize::from(table[2 * prior + 1]);
                let mut expected: BTreeMap<Code, u8> =
                    printed.iter().filter(|row| row.0 == prior).map(|row| (row.2.clone(), row.1)).collect();
                if table[root..root + 2] == [155, 155] {
                    assert_eq!(expected, BTreeMap::from([(vec![1], ESCAPE)]));
                    expected.insert(vec![0], ESCAPE);
                }
                assert_eq!(walked, expected, "prior {prior}");
                assert_eq!(walked, built(&decoder.0[prior]), "prior {prior}");
            }
            assert_eq!(leaves, if count == 913 { 970 } else { 891 });
            assert_eq!(table[table.len() - 10..], [155; 10]);
        }
    }

    /// The bits of a text with its terminate, escapes where the list has no code.
    pub(crate) fn encode_bits(kind: usize, text: &str) -> Vec<usize> {
        let list = lists()[kind - 1].0;
        let code = |prior: u8, symbol: u8| {
            list.lines().filter_map(line).find(|row| row.0 == usize::from(prior) && row.1 == symbol).map(|row| row.2)
        };
        let mut bits = Vec::new();
        let mut prior = 0;
        for &symbol in text.as_bytes().iter().chain(&[0]) {
            match code(prior, symbol) {
                Some(code) if symbol != ESCAPE => bits.extend(code),
                _ => {
                    bits.extend(code(prior, ESCAPE).unwrap());
                    bits.extend((0..8).rev().map(|bit| usize::from(symbol >> bit & 1)));
                }
            }
            prior = symbol;
        }
        bits
    }

    fn pack(bits: &[usize]) -> Vec<u8> {
        bits.chunks(8)
            .map(|chunk| chunk.iter().enumerate().fold(0, |byte, (at, bit)| byte | (*bit as u8) << (7 - at)))
            .collect()
    }

    pub(crate) fn encode(kind: usize, text: &str) -> Vec<u8> {
        pack(&encode_bits(kind, text))
    }

    fn shown(text: &str) -> Option<Vec<u16>> {
        Some(text.encode_utf16().collect())
    }

    #[test]
    fn the_next() {
        let bits = encode_bits(1, "The next");
        assert_eq!(bits.len(), 39);
        assert_eq!(bits[34..], [0, 1, 0, 1, 0]);
        assert_eq!(type_1().decode(&pack(&bits)), shown("The next"));
        // Fewer bits end early; a whole byte behind the end is too much.
        for length in 0..bits.len() / 8 {
            assert_eq!(type_1().decode(&pack(&bits)[..length]), None);
        }
        let mut longer = pack(&bits);
        longer[4] |= 1;
        assert_eq!(type_1().decode(&longer), shown("The next"));
        longer.push(0);
        assert_eq!(type_1().decode(&longer), None);
    }

    #[test]
    fn end_with_zero_to_seven_bits() {
        // Texts of many bit counts, so that each number of bits after the end is met.
        let mut met = [false; 8];
        for length in 1..40 {
            let text: String = "A man in the rain and a dog on the road".chars().take(length).collect();
            let text = text.trim_end();
            let bits = encode_bits(1, text);
            if type_1().decode(&pack(&bits)) != shown(text) {
                // No coded end after this prior: the end was written raw and is a plain 0.
                assert_eq!(type_1().decode(&pack(&bits)), None);
                continue;
            }
            met[(8 - bits.len() % 8) % 8] = true;
            let mut longer = pack(&bits);
            longer.push(0xFF);
            assert_eq!(type_1().decode(&longer), None);
        }
        assert!(met.iter().filter(|&&met| met).count() >= 6, "{met:?}");
    }

    #[test]
    fn raw_characters() {
        // Raw 0 and raw 27 are plain; after raw 27 the prior is 27, where both bits are escape.
        assert_eq!(type_1().decode(&encode(1, "A\u{0}B.")), shown("A\u{0}B."));
        let text = "A\u{1b}B.";
        let bits = encode_bits(1, text);
        assert_eq!(type_1().decode(&pack(&bits)), shown(text));
        let code = |prior: usize, symbol: u8| -> Code {
            TYPE_1_CODES.lines().filter_map(line).find(|row| row.0 == prior && row.1 == symbol).unwrap().2
        };
        let raw = |value: u8| -> Code { (0..8).rev().map(|bit| usize::from(value >> bit & 1)).collect() };
        // The unprinted bit 0 of prior 27 is an escape as well.
        let tail = [raw(b'!'), code(33, 0)].concat();
        for bit in [0, 1] {
            let bits = [code(0, ESCAPE), raw(27), vec![bit], tail.clone()].concat();
            assert_eq!(type_1().decode(&pack(&bits)), shown("\u{1b}!"));
        }
        // 127 is the largest raw character; its prior has only escapes.
        let bits = [code(0, ESCAPE), raw(127), vec![1], tail.clone()].concat();
        assert_eq!(type_1().decode(&pack(&bits)), shown("\u{7f}!"));
        let bits = [code(0, ESCAPE), raw(128), vec![1], tail].concat();
        assert_eq!(type_1().decode(&pack(&bits)), None);
        assert_eq!(type_2().decode(&encode(2, "A tale.")), shown("A tale."));
    }
}
