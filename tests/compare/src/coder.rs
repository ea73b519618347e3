//! Compressed segments, made from the printed lists of annex C: walks along the codes, most of them well ended.

use crate::chance::Chance;
use std::sync::OnceLock;

const LISTS: [&str; 2] =
    [include_str!("../../../data/annex-c-1-codes.txt"), include_str!("../../../data/annex-c-2-codes.txt")];
const END: u8 = 0;
const ESCAPE: u8 = 27;

/// The printed codes of each prior, as (symbol, bits).
type Codes = Vec<Vec<(u8, Vec<bool>)>>;

fn codes(kind: usize) -> &'static Codes {
    static CODES: OnceLock<[Codes; 2]> = OnceLock::new();
    &CODES.get_or_init(|| {
        LISTS.map(|list| {
            let mut codes = vec![Vec::new(); 128];
            for line in list.lines() {
                let words: Vec<&str> = line.split_whitespace().collect();
                let prior: usize = words[0].parse().unwrap();
                codes[prior].push((words[1].parse().unwrap(), words[2].chars().map(|bit| bit == '1').collect()));
            }
            codes
        })
    })[kind - 1]
}

fn escaped(chance: &mut Chance, codes: &Codes, prior: u8, raw: u8, bits: &mut Vec<bool>) {
    let of_prior = &codes[usize::from(prior)];
    if of_prior.len() == 1 {
        // Where the escape alone is printed either bit means it.
        bits.push(chance.often(50));
    } else {
        bits.extend(&of_prior.iter().find(|code| code.0 == ESCAPE).unwrap().1);
    }
    bits.extend((0..8).rev().map(|bit| raw >> bit & 1 == 1));
}

/// A segment of type 1 or 2, of at most about `most` bytes; one in five is spoiled at its end or in a raw character.
pub fn segment(chance: &mut Chance, kind: usize, most: usize) -> Vec<u8> {
    let codes = codes(kind);
    let spoiled = chance.often(20);
    let mut bits = Vec::new();
    let mut prior = 0;
    for _ in 0..chance.below(30) {
        if bits.len() + 40 > most * 8 {
            break;
        }
        let (symbol, code) = &codes[usize::from(prior)][chance.below(codes[usize::from(prior)].len())];
        prior = match *symbol {
            END => continue,
            ESCAPE => {
                let raw = if spoiled && chance.often(20) { 128 | chance.byte() } else { chance.byte() & 127 };
                let raw = if chance.often(10) { chance.of(&[END, ESCAPE, 127]) } else { raw };
                escaped(chance, codes, prior, raw, &mut bits);
                raw & 127
            }
            symbol => {
                bits.extend(code);
                symbol
            }
        };
    }
    let end = |prior: u8| codes[usize::from(prior)].iter().find(|code| code.0 == END);
    if end(prior).is_none() {
        escaped(chance, codes, prior, b'.', &mut bits);
        prior = b'.';
    }
    if !(spoiled && chance.often(30)) {
        bits.extend(&end(prior).unwrap().1);
    }
    if spoiled && chance.often(40) {
        bits.extend((0..7 + chance.below(3)).map(|bit| bit % 3 == 0));
    }
    let filler = chance.byte();
    bits.chunks(8)
        .map(|chunk| {
            (0..8).fold(0, |byte, at| byte << 1 | chunk.get(at).map_or(filler >> at & 1, |&bit| u8::from(bit)))
        })
        .collect()
}
