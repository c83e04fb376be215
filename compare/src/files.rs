//! Chain files, which the Rust doesn't have: a reader and a writer made from the scope's text stand in for it.
use crate::case::{demand, told, Case, Refusal};
use crate::chains::{flat, shape_of};
use crate::lent::{self, Lent};
use crate::port::{self, Shape};
use crate::{chains, spoil, table};
use oracle::draw::Most;
use oracle::random::Random;

const HEADER: usize = 8;
const ENTRY: usize = 12;

/// The one file of a chain that isn't refused.
pub fn file_of(s: &Shape, chain: &[f64]) -> Vec<u8> {
    let short = |x: usize| (x as u16).to_le_bytes();
    let mut file = b"TTC1".to_vec();
    file.extend([short(s.d), short(0)].concat());
    let mut offset = HEADER + ENTRY * s.d;
    for k in 0..s.d {
        let sizes = [s.left[k], s.n[k], s.right[k], 0].map(short).concat();
        file.extend(sizes);
        file.extend((offset as u32).to_le_bytes());
        offset += 8 * table::core_size(s, k);
    }
    file.extend(chain.iter().flat_map(|x| x.to_le_bytes()));
    file
}

fn short_at(file: &[u8], at: usize) -> usize {
    usize::from(u16::from_le_bytes([file[at], file[at + 1]]))
}

fn offset_at(file: &[u8], at: usize) -> usize {
    u32::from_le_bytes([file[at], file[at + 1], file[at + 2], file[at + 3]]) as usize
}

const EMPTY: Shape = Shape {
    d: 0,
    left: [0; 16],
    n: [0; 16],
    right: [0; 16],
};

/// The shape that header and table give.
fn contents(file: &[u8]) -> Result<Shape, Refusal> {
    let rule = |at: usize| Err(Refusal::Checked(11, at));
    if file.len() < HEADER {
        return rule(file.len());
    }
    if &file[..4] != b"TTC1" {
        return rule(0);
    }
    if short_at(file, 6) != 0 {
        return rule(6);
    }
    let d = short_at(file, 4);
    if !(1..=16).contains(&d) {
        return Err(Refusal::Checked(1, 0));
    }
    if file.len() < HEADER + ENTRY * d {
        return rule(file.len());
    }
    let mut s = Shape { d, ..EMPTY };
    let mut offset = HEADER + ENTRY * d;
    for k in 0..d {
        let at = HEADER + ENTRY * k;
        let [left, n, right, zero] = [0, 2, 4, 6].map(|field| short_at(file, at + field));
        if !(1..=8).contains(&left) || !(1..=64).contains(&n) || !(1..=8).contains(&right) {
            return Err(Refusal::Checked(2, k));
        }
        if zero != 0 {
            return rule(at + 6);
        }
        if offset_at(file, at + 8) != offset {
            return rule(at + 8);
        }
        (s.left[k], s.n[k], s.right[k]) = (left, n, right);
        offset += 8 * table::core_size(&s, k);
    }
    match table::shape(&s).lowest() {
        Some(refusal) => Err(refusal),
        None if file.len() != offset => rule(file.len()),
        None => Ok(s),
    }
}

/// A whole file, read into room for so many numbers.
fn read(file: &[u8], room: usize) -> Result<(Shape, Vec<f64>), Refusal> {
    let s = contents(file)?;
    if room < table::entries(&s) {
        return Err(Refusal::Checked(5, 1));
    }
    let body = &file[HEADER + ENTRY * s.d..];
    let numbers: Vec<f64> = body
        .chunks_exact(8)
        .map(|b| f64::from_le_bytes(b.try_into().expect("eight bytes")))
        .collect();
    for k in 0..s.d {
        let core = table::part(&numbers, |k| table::core_size(&s, k), k);
        if core.iter().any(|x| !x.is_finite()) {
            return Err(Refusal::Checked(6, k));
        }
    }
    Ok((s, numbers))
}

/// A chain and its shape, with signed zeros and subnormals among its numbers.
fn chain(r: &mut Random, most: &Most) -> (Shape, Vec<f64>) {
    let cores = chains::draw(r, most);
    let mut chain = flat(&cores);
    for x in &mut chain {
        if r.one_in(16) {
            *x = r.of(&[-0.0, 5e-324, -f64::MIN_POSITIVE, f64::MAX]);
        }
    }
    (shape_of(r, &cores), chain)
}

/// A number of the body that isn't finite.
fn spoil_number(r: &mut Random, file: &mut [u8]) {
    if let Ok(s) = contents(file) {
        let at = HEADER + ENTRY * s.d + 8 * r.below(table::entries(&s));
        let number = r.of(&[f64::NAN, f64::INFINITY, f64::NEG_INFINITY]);
        file[at..at + 8].copy_from_slice(&number.to_le_bytes());
    }
}

/// The file of a chain whose ranks may differ at a bond, sound in all else.
fn spoil_bond(r: &mut Random, file: &mut Vec<u8>) {
    if let Ok(mut s) = contents(file) {
        let k = r.below(s.d);
        let ranks = if r.one_in(2) {
            &mut s.left
        } else {
            &mut s.right
        };
        ranks[k] = 1 + r.below(8);
        *file = file_of(&s, &vec![1.0; table::entries(&s)]);
    }
}

#[derive(Debug)]
pub struct Read {
    file: Vec<u8>,
    room: usize,
}

impl Read {
    pub fn draw(r: &mut Random, most: &Most) -> Read {
        let (shape, chain) = chain(r, most);
        Read {
            file: file_of(&shape, &chain),
            room: chain.len() + r.of(&[0, 0, 1, 100]),
        }
    }
}

impl Case for Read {
    type Answer = (Shape, Vec<f64>);

    fn spoil(&mut self, r: &mut Random) {
        let length = self.file.len().max(1);
        let fields = HEADER + ENTRY * r.below(18);
        let upto = r.of(&[HEADER, fields, fields, length]);
        let at = r.below(upto.min(length));
        match r.below(9) {
            0 => spoil::length(r, &mut self.file),
            1 => self.file.truncate(at),
            2 => self.file.extend(vec![0; 1 + r.below(16)]),
            3 => self.room = self.room.saturating_sub(1 + r.below(3)),
            4 => spoil_number(r, &mut self.file),
            5 => spoil_bond(r, &mut self.file),
            6 if at < self.file.len() => self.file[at] = r.of(&[0, 1, 2, 9, 17, 65, 255]),
            _ if at < self.file.len() => self.file[at] ^= 1 << r.below(8),
            _ => {}
        }
    }

    fn refused(&self) -> Option<Refusal> {
        None
    }

    fn rust(&self) -> Result<(Shape, Vec<f64>), Refusal> {
        read(&self.file, self.room)
    }

    fn port(
        &self,
        r: &mut Random,
        want: &Result<(Shape, Vec<f64>), Refusal>,
    ) -> Result<(), String> {
        let mut file = Lent::of("file", &self.file);
        let mut numbers = lent::room(r, "numbers", self.room);
        let got = port::read_chain(file.part(), numbers.part());
        let shape = want.as_ref().map_or(EMPTY, |(shape, _)| shape.clone());
        let told = (told(want), shape);
        demand(got == told, || format!("answered {got:?}\nnot {told:?}"))?;
        file.unwritten()?;
        match want {
            Err(_) => numbers.unwritten(),
            Ok((_, chain)) => numbers.holds_bits(chain),
        }
    }
}

/// What `ttlist` prints of a file.
fn listing(file: &[u8]) -> String {
    if file.len() > 8_392 {
        return "too large\n".to_string();
    }
    match read(file, 1_049) {
        Err(refusal) => {
            let told = refusal.told();
            format!("refused {} at {}\n", told.number, told.place)
        }
        Ok((s, _)) => {
            let mut text = format!("axes {} entries {}\n", s.d, table::entries(&s));
            for k in 0..s.d {
                let at = offset_at(file, HEADER + ENTRY * k + 8);
                text += &format!("{k} {} {} {} {at}\n", s.left[k], s.n[k], s.right[k]);
            }
            text
        }
    }
}

/// A file to be listed.
#[derive(Debug)]
pub struct List(Read);

impl List {
    pub fn draw(r: &mut Random, most: &Most) -> List {
        List(Read::draw(r, most))
    }
}

impl Case for List {
    type Answer = String;

    fn spoil(&mut self, r: &mut Random) {
        self.0.spoil(r);
    }

    fn refused(&self) -> Option<Refusal> {
        None
    }

    fn rust(&self) -> Result<String, Refusal> {
        Ok(listing(&self.0.file))
    }

    fn port(&self, r: &mut Random, want: &Result<String, Refusal>) -> Result<(), String> {
        let mut file = Lent::of("file", &self.0.file);
        let before: [u8; 2048] = std::array::from_fn(|_| r.next() as u8);
        let mut text = before;
        let length = port::text_of(file.part(), &mut text);
        let mut told = before;
        let want = want.as_ref().map_or("", |w| w);
        told[..want.len()].copy_from_slice(want.as_bytes());
        demand(length == want.len() && text == told, || {
            format!("listed {:?}\nnot {want:?}", text.escape_ascii().to_string())
        })?;
        file.unwritten()
    }
}

#[derive(Debug)]
pub struct Write {
    shape: Shape,
    chain: Vec<f64>,
    room: usize,
}

impl Write {
    pub fn draw(r: &mut Random, most: &Most) -> Write {
        let (shape, chain) = chain(r, most);
        Write {
            room: HEADER + ENTRY * shape.d + 8 * chain.len(),
            shape,
            chain,
        }
    }
}

impl Case for Write {
    type Answer = Vec<u8>;

    fn spoil(&mut self, r: &mut Random) {
        match r.below(4) {
            0 => spoil::shape(r, &mut self.shape),
            1 => spoil::length(r, &mut self.chain),
            2 => spoil::room(r, &mut self.room),
            _ => spoil::number(r, &mut self.chain),
        }
    }

    fn refused(&self) -> Option<Refusal> {
        table::write(&self.shape, &self.chain, self.room)
    }

    fn rust(&self) -> Result<Vec<u8>, Refusal> {
        Ok(file_of(&self.shape, &self.chain))
    }

    fn port(&self, r: &mut Random, want: &Result<Vec<u8>, Refusal>) -> Result<(), String> {
        let mut chain = Lent::of("chain", &self.chain);
        let mut file = lent::bytes(r, "file", self.room);
        let got = port::write_chain(&self.shape, chain.part(), file.part());
        let told = told(want);
        demand(got == told, || format!("answered {got:?}\nnot {told:?}"))?;
        chain.unwritten()?;
        match want {
            Err(_) => file.unwritten(),
            Ok(whole) => file.holds_bits(whole),
        }
    }
}
