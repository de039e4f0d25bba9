//! Relationships of named animals: a column of the relationship matrix for each of the first (Colleau 2002), in whole
//! numbers, with scratch that is kept from column to column.

use std::collections::HashMap;

use crate::{mark, mendelian, passed_on, push_u128, take_youngest, Frozen, Line, Number, Places, NONE, UNIT};

struct Scratch {
    q: Vec<u64>,
    bits: Vec<u64>,
    r: Vec<u128>,
}

/// The relationships of the animal at a place with all, in unit 2^-120.
fn column(it: &mut Scratch, lines: &[Line], known: &[u128], x: u32) {
    it.r.fill(0);
    it.q[x as usize] = 1;
    mark(&mut it.bits, x);
    let top = lines[x as usize].depth;
    for word in (0..=x as usize / 64).rev() {
        while let Some(j) = take_youngest(&mut it.bits, word) {
            let share = std::mem::take(&mut it.q[j as usize]);
            let line = lines[j as usize];
            for p in [line.sire, line.dam] {
                if p != NONE {
                    it.q[p as usize] += passed_on(share, line.depth, lines[p as usize].depth);
                    mark(&mut it.bits, p);
                }
            }
            it.r[j as usize] = (mendelian(lines, known, j) >> (top - line.depth)) * u128::from(share);
        }
    }
    for (j, line) in lines.iter().enumerate() {
        let of = |p: u32| if p == NONE { 0 } else { it.r[p as usize] };
        let both = of(line.sire) + of(line.dam);
        it.r[j] += both / 2;
    }
}

fn push_line(out: &mut Vec<u8>, x: Number, y: Number, numerator: u128) {
    for number in [x, y] {
        out.extend_from_slice(&number.0);
        out.push(b',');
    }
    let halvings = numerator.trailing_zeros().min(UNIT);
    push_u128(out, numerator >> halvings);
    if halvings < UNIT {
        out.push(b'/');
        push_u128(out, 1 << (UNIT - halvings));
    }
    out.push(b'\n');
}

/// The numbers of the words that are in the book, with their places; the others get a line.
fn found(words: &[String], places: &Places, out: &mut Vec<u8>) -> Vec<(Number, u32)> {
    let mut list = Vec::new();
    for word in words {
        let number = crate::parse_number(word.as_bytes()).expect("an animal number");
        match places.get(&number) {
            Some(place) => list.push((number, *place)),
            None => {
                out.extend_from_slice(&number.0);
                out.extend_from_slice(b",refused,1\n");
            }
        }
    }
    list
}

/// What `relationships NUMBER.. [--with NUMBER..]` prints.
pub fn print(frozen: &Frozen, known: &[u128], words: &[String]) -> Vec<u8> {
    let end = words.iter().position(|it| it == "--with").unwrap_or(words.len());
    let mut places: Places = HashMap::default();
    places.extend(frozen.numbers.iter().zip(0..).map(|(number, place)| (*number, place)));
    let mut out = Vec::new();
    let firsts = found(&words[..end], &places, &mut out);
    let others = found(words.get(end + 1..).unwrap_or(&[]), &places, &mut out);
    let n = frozen.lines.len();
    let mut it = Scratch { q: vec![0; n], bits: vec![0; n / 64 + 1], r: vec![0; n] };
    for (at, (x, place)) in firsts.iter().enumerate() {
        column(&mut it, &frozen.lines, known, *place);
        for (y, other) in if end < words.len() { &others[..] } else { &firsts[at..] } {
            push_line(&mut out, *x, *y, it.r[*other as usize]);
        }
    }
    out
}
