//! The least interpolation polynomials of a file, and in mode basis the reduced bases of its care
//! points too: the method of `interp` as a plain program, without proofs, with one thread, and with
//! a table of a given size that is not shared. `looks.py` counts its instructions beside those of
//! `interp`.
//!
//!     rustc --edition 2021 -C opt-level=3 -C panic=abort plain.rs
//!     plain MODE BITS < FILE
//!
//! The table has 2^BITS slots, and the process ends with status 3 where they do not suffice. It has
//! no limit on terms. It reads files as `make_files.py` writes them and tests nothing in them, but
//! that no point is listed with both values, where it ends with status 1. Built with `--cfg count`,
//! it prints on standard error how often it looked for a kept result, also where its table is full.

use std::io::{Read, Write};
use std::process::exit;

const CONTRADICTED: i32 = 1;
const UNUSABLE: i32 = 2;
const FULL: i32 = 3;

/// The family without members, and the one whose only member is the empty set.
const NONE: u32 = 0;
const UNIT: u32 = 1;
/// How many handles have no node.
const ENDS: u32 = 2;

/// A node's word is its variable and two handles, and a key is an operation and two handles.
const HANDLE_BITS: u32 = 24;
const HANDLE: u64 = (1 << HANDLE_BITS) - 1;
const FRONT: u32 = 2 * HANDLE_BITS;
const KEY_BITS: u32 = FRONT + 4;
/// The most slots, whose handles have so many bits.
const MOST_BITS: u32 = HANDLE_BITS - 1;
/// A variable behind all others.
const LAST: u64 = 63;
/// The odd number that words are mixed by: 2^64 by the golden ratio.
const FACTOR: u64 = 0x9E37_79B9_7F4A_7C15;
/// The fewest slots for results: the rest of a key has room before a handle then.
const LEAST_RESULT_BITS: u32 = 12;

// The numbers of the operations whose results are kept.
const UNION: u64 = 1;
const INTERSECTION: u64 = 2;
const DIFFERENCE: u64 = 3;
const SUM: u64 = 4;
const ONES: u64 = 5;
const LEAST: u64 = 6;
const STANDARD: u64 = 7;
const LEADS: u64 = 8;

/// The nodes and the kept results of one run. A handle stands for a family of sets of variables. As
/// a set of points it has for each the variables that are 1, and as a polynomial for each monomial
/// its factors.
///
/// What is read and written at each step is not tested to lie in a table, which would take a tenth
/// more instructions: a handle is one that this table gave away, and a slot has as few bits as the
/// table has room for.
struct Tables {
    /// The words of nodes, or 0. The handle of a node is its slot plus `ENDS`.
    nodes: Vec<u64>,
    /// The rest of a mixed key and one more than the result's handle, or 0.
    results: Vec<u64>,
    /// The last slot, which has all bits that a slot may have.
    mask: usize,
    /// How many bits of a mixed word are below those of its slot.
    shift: u32,
    /// How many bits of a mixed key are kept with its result.
    rest_bits: u32,
    used: usize,
    variables: u32,
    looks: u64,
}

/// Two families cut by the first variable that one of them has: the members without it, and those
/// with it, from which it is taken away.
#[derive(Clone, Copy)]
struct Cut {
    variable: u32,
    first: (u32, u32),
    second: (u32, u32),
}

/// Where the result of a key is kept, and what of the key is kept with it.
#[derive(Clone, Copy)]
struct Place {
    slot: usize,
    rest: u64,
}

#[cold]
#[inline(never)]
fn end_as_full(looks: u64) -> ! {
    if cfg!(count) {
        eprintln!("{looks}");
    } else {
        eprintln!("plain: no slot is left");
    }
    exit(FULL)
}

/// The two halves of a node: the members without its variable, and those with it.
#[inline(always)]
fn halves(word: u64) -> (u32, u32) {
    ((word >> HANDLE_BITS & HANDLE) as u32, (word & HANDLE) as u32)
}

/// The halves of a family, whose first node has this word, by a variable that is not behind that
/// of the node.
#[inline(always)]
fn halves_by(variable: u64, family: u32, word: u64) -> (u32, u32) {
    if word >> FRONT == variable {
        halves(word)
    } else {
        (family, NONE)
    }
}

impl Tables {
    #[inline(never)]
    fn new(bits: u32, variables: u32) -> Tables {
        assert!((1..=MOST_BITS).contains(&bits), "a table of 2^1 to 2^{MOST_BITS} slots");
        let result_bits = bits.max(LEAST_RESULT_BITS);
        Tables {
            nodes: vec![0; 1 << bits],
            results: vec![0; 1 << result_bits],
            mask: (1 << bits) - 1,
            shift: u64::BITS - bits,
            rest_bits: KEY_BITS - result_bits,
            used: 0,
            variables,
            looks: 0,
        }
    }

    /// The word of a family's first node, and of one without nodes a word with the last variable.
    #[inline(always)]
    fn word(&self, family: u32) -> u64 {
        if family < ENDS {
            return LAST << FRONT;
        }
        // SAFETY: the handle of a node is that of its slot.
        unsafe { *self.nodes.get_unchecked(family as usize - ENDS as usize) }
    }

    #[inline(always)]
    fn cut(&self, first: u32, second: u32) -> Cut {
        let (first_word, second_word) = (self.word(first), self.word(second));
        let variable = (first_word >> FRONT).min(second_word >> FRONT);
        Cut {
            variable: variable as u32,
            first: halves_by(variable, first, first_word),
            second: halves_by(variable, second, second_word),
        }
    }

    /// The members of the first family, and those of the second with this variable, which is before
    /// all theirs.
    #[inline(always)]
    fn grow(&mut self, variable: u32, without: u32, with: u32) -> u32 {
        if with == NONE {
            return without;
        }
        let word =
            u64::from(variable) << FRONT | u64::from(without) << HANDLE_BITS | u64::from(with);
        let mut slot = (word.wrapping_mul(FACTOR) >> self.shift) as usize;
        loop {
            // SAFETY: no slot is greater than the mask.
            let found = unsafe { self.nodes.get_unchecked_mut(slot) };
            if *found == word {
                return slot as u32 + ENDS;
            }
            if *found == 0 {
                *found = word;
                self.count_node();
                return slot as u32 + ENDS;
            }
            slot = (slot + 1) & self.mask;
        }
    }

    /// Counts a new node. One slot has to stay free, where a search ends.
    #[inline(always)]
    fn count_node(&mut self) {
        self.used += 1;
        if self.used > self.mask {
            end_as_full(self.looks)
        }
    }

    #[inline(always)]
    fn place(&self, operation: u64, first: u32, second: u32) -> Place {
        let key = operation << FRONT | u64::from(first) << HANDLE_BITS | u64::from(second);
        let mixed = key.wrapping_mul(FACTOR) & ((1 << KEY_BITS) - 1);
        Place {
            slot: (mixed >> self.rest_bits) as usize,
            rest: mixed & ((1 << self.rest_bits) - 1),
        }
    }

    #[inline(always)]
    fn look(&mut self, place: Place) -> Option<u32> {
        if cfg!(count) {
            self.looks += 1;
        }
        // SAFETY: of the `KEY_BITS` of a mixed key all but `rest_bits` are those of a slot.
        let word = unsafe { *self.results.get_unchecked(place.slot) };
        let is_found = word != 0 && word >> HANDLE_BITS == place.rest;
        is_found.then(|| (word & HANDLE) as u32 - 1)
    }

    /// Keeps a result, in place of the one that is kept there.
    #[inline(always)]
    fn keep(&mut self, place: Place, result: u32) -> u32 {
        let word = place.rest << HANDLE_BITS | (u64::from(result) + 1);
        // SAFETY: as in `look`.
        unsafe { *self.results.get_unchecked_mut(place.slot) = word };
        result
    }

    /// A set operation, of which each member of the result is a member of an operand.
    fn combine<const OPERATION: u64>(&mut self, first: u32, second: u32) -> u32 {
        if first == second {
            return if OPERATION == UNION || OPERATION == INTERSECTION { first } else { NONE };
        }
        if second == NONE {
            return if OPERATION == INTERSECTION { NONE } else { first };
        }
        if first == NONE {
            return if OPERATION == UNION || OPERATION == SUM { second } else { NONE };
        }
        let is_turned = OPERATION != DIFFERENCE && second < first;
        let (first, second) = if is_turned { (second, first) } else { (first, second) };
        let place = self.place(OPERATION, first, second);
        if let Some(result) = self.look(place) {
            return result;
        }
        let cut = self.cut(first, second);
        let without = self.combine::<OPERATION>(cut.first.0, cut.second.0);
        let with = self.combine::<OPERATION>(cut.first.1, cut.second.1);
        let result = self.grow(cut.variable, without, with);
        self.keep(place, result)
    }

    fn union(&mut self, first: u32, second: u32) -> u32 {
        self.combine::<UNION>(first, second)
    }

    fn intersection(&mut self, first: u32, second: u32) -> u32 {
        self.combine::<INTERSECTION>(first, second)
    }

    fn difference(&mut self, first: u32, second: u32) -> u32 {
        self.combine::<DIFFERENCE>(first, second)
    }

    /// The members of one of both alone, which is the sum of polynomials.
    fn sum(&mut self, first: u32, second: u32) -> u32 {
        self.combine::<SUM>(first, second)
    }

    /// The points at which a polynomial is 1.
    fn ones(&mut self, polynomial: u32, points: u32) -> u32 {
        if polynomial == NONE || points == NONE {
            return NONE;
        }
        if polynomial == UNIT {
            return points;
        }
        let place = self.place(ONES, polynomial, points);
        if let Some(result) = self.look(place) {
            return result;
        }
        let cut = self.cut(polynomial, points);
        let without = self.ones(cut.first.0, cut.second.0);
        let with = if cut.second.1 == NONE {
            NONE
        } else {
            let at_one = self.sum(cut.first.0, cut.first.1);
            self.ones(at_one, cut.second.1)
        };
        let result = self.grow(cut.variable, without, with);
        self.keep(place, result)
    }

    /// The least polynomial with value 0 and 1 at these points.
    fn least(&mut self, zeros: u32, ones: u32) -> u32 {
        if ones == NONE {
            return NONE;
        }
        if zeros == NONE {
            return UNIT;
        }
        let place = self.place(LEAST, zeros, ones);
        if let Some(result) = self.look(place) {
            return result;
        }
        let cut = self.cut(zeros, ones);
        let with = self.least_factor(cut.first, cut.second);
        let without = self.least_rest(with, cut.first, cut.second);
        let result = self.grow(cut.variable, without, with);
        self.keep(place, result)
    }

    /// The factor of the variable in the least polynomial: whether the values at both of its values
    /// differ.
    #[inline(always)]
    fn least_factor(&mut self, zeros: (u32, u32), ones: (u32, u32)) -> u32 {
        let same = self.common(zeros.0, zeros.1, ones.0, ones.1);
        let different = self.common(zeros.0, ones.1, ones.0, zeros.1);
        self.least(same, different)
    }

    /// What the least polynomial has without the variable, of which the factor is known: the values
    /// at points where both are 1 are turned.
    #[inline(always)]
    fn least_rest(&mut self, factor: u32, zeros: (u32, u32), ones: (u32, u32)) -> u32 {
        let turned_zeros = self.ones(factor, zeros.1);
        let turned_ones = self.ones(factor, ones.1);
        let rest_zeros = self.replaced(zeros.0, turned_ones, zeros.1, turned_zeros);
        let rest_ones = self.replaced(ones.0, turned_zeros, ones.1, turned_ones);
        self.least(rest_zeros, rest_ones)
    }

    /// What the first two have in common, and what the last two have.
    fn common(&mut self, first: u32, second: u32, third: u32, fourth: u32) -> u32 {
        let left = self.intersection(first, second);
        let right = self.intersection(third, fourth);
        self.union(left, right)
    }

    /// The points of both halves, where some are added to the one and removed from the other.
    fn replaced(&mut self, without: u32, added: u32, with: u32, removed: u32) -> u32 {
        let left = self.union(without, added);
        let right = self.difference(with, removed);
        self.union(left, right)
    }

    /// The standard monomials of the polynomials that vanish at these points.
    fn standard(&mut self, points: u32) -> u32 {
        if points < ENDS {
            return points;
        }
        let place = self.place(STANDARD, points, NONE);
        if let Some(result) = self.look(place) {
            return result;
        }
        let word = self.word(points);
        let (at_zero, at_one) = halves(word);
        let either = self.union(at_zero, at_one);
        let both = self.intersection(at_zero, at_one);
        let without = self.standard(either);
        let with = self.standard(both);
        let result = self.grow((word >> FRONT) as u32, without, with);
        self.keep(place, result)
    }

    /// The least monomials, by division, that are no standard ones, over this variable and those
    /// behind it.
    fn leads(&mut self, monomials: u32, variable: u32) -> u32 {
        if monomials == NONE {
            return UNIT;
        }
        if self.variables < variable {
            return NONE;
        }
        let place = self.place(LEADS, monomials, variable);
        if let Some(result) = self.look(place) {
            return result;
        }
        let word = self.word(monomials);
        let (standard_without, standard_with) = halves_by(u64::from(variable), monomials, word);
        let without = self.leads(standard_without, variable + 1);
        let above = self.leads(standard_with, variable + 1);
        let with = self.intersection(above, standard_without);
        let result = self.grow(variable, without, with);
        self.keep(place, result)
    }

    /// The element of the reduced basis with this leading monomial.
    fn element(&mut self, points: u32, lead: u64) -> u32 {
        let lead = self.one(lead);
        let ones = self.ones(lead, points);
        let zeros = self.difference(points, ones);
        let tail = self.least(zeros, ones);
        self.sum(lead, tail)
    }

    /// The family of one set, given by its bits.
    fn one(&mut self, set: u64) -> u32 {
        let all = u64::MAX >> (u64::BITS - self.variables);
        self.cube(all, set)
    }

    /// All sets.
    fn power(&mut self) -> u32 {
        self.cube(0, 0)
    }

    /// The points that have these values at these variables.
    fn cube(&mut self, fixed: u64, values: u64) -> u32 {
        let mut points = UNIT;
        for behind in 0..self.variables {
            let (without, with) = match (fixed >> behind & 1, values >> behind & 1) {
                (0, _) => (points, points),
                (_, 0) => (points, NONE),
                _ => (NONE, points),
            };
            points = self.grow(self.variables - behind, without, with);
        }
        points
    }

    /// The members of a family as bits, from the greatest down.
    fn members(&self, family: u32) -> Vec<u64> {
        let mut found = Vec::new();
        self.push_members(family, 0, &mut found);
        found
    }

    fn push_members(&self, family: u32, base: u64, found: &mut Vec<u64>) {
        if family == UNIT {
            found.push(base);
        }
        if family < ENDS {
            return;
        }
        let word = self.word(family);
        let (without, with) = halves(word);
        self.push_members(with, base | 1 << (self.variables - (word >> FRONT) as u32), found);
        self.push_members(without, base, found);
    }
}

/// What the rows of a file list beside points with value 1, by its type.
#[derive(Clone, Copy)]
struct Listed {
    zeros: bool,
    free: bool,
}

/// A row: the inputs that it fixes and their values, and the outputs that have a value there.
struct Row {
    fixed: u64,
    values: u64,
    ones: u64,
    zeros: u64,
    free: u64,
}

struct Description {
    inputs: u32,
    outputs: u32,
    listed: Listed,
    rows: Vec<Row>,
}

/// The points at which an output is to be 0, and those at which it is to be 1.
#[derive(Clone, Copy)]
struct Care {
    zeros: u32,
    ones: u32,
}

#[inline(never)]
fn read_description(text: &str) -> Description {
    let listed = Listed { zeros: false, free: true };
    let mut read = Description { inputs: 0, outputs: 0, listed, rows: Vec::new() };
    for line in text.lines() {
        let mut words = line.split_ascii_whitespace();
        let (Some(first), second) = (words.next(), words.next().unwrap_or("")) else { continue };
        match first {
            ".i" => read.inputs = second.parse().expect("a number of inputs"),
            ".o" => read.outputs = second.parse().expect("a number of outputs"),
            ".type" => {
                read.listed = Listed { zeros: second.contains('r'), free: second.contains('d') }
            }
            ".e" => break,
            _ => read.rows.push(read_row(first, second, read.listed)),
        }
    }
    read
}

fn read_row(left: &str, right: &str, listed: Listed) -> Row {
    let mut row = Row { fixed: 0, values: 0, ones: 0, zeros: 0, free: 0 };
    for symbol in left.bytes() {
        row.fixed = row.fixed << 1 | u64::from(symbol != b'-');
        row.values = row.values << 1 | u64::from(symbol == b'1');
    }
    for (output, symbol) in right.bytes().enumerate() {
        match symbol {
            b'1' => row.ones |= 1 << output,
            b'0' if listed.zeros => row.zeros |= 1 << output,
            b'-' if listed.free => row.free |= 1 << output,
            _ => {}
        }
    }
    row
}

/// Whether no point is listed with both values. Where each row is a point, those of one point are
/// sorted together, since there may be too many rows to compare each two.
#[inline(never)]
fn is_consistent(given: &Description) -> bool {
    if !given.listed.zeros {
        return true;
    }
    let all = u64::MAX >> (u64::BITS - given.inputs);
    if given.rows.iter().any(|row| row.fixed != all) {
        let mut rows = given.rows.iter().enumerate();
        return rows
            .all(|(number, row)| given.rows[..number].iter().all(|other| agree(row, other)));
    }
    let mut rows: Vec<&Row> = given.rows.iter().collect();
    rows.sort_unstable_by_key(|row| row.values);
    rows.chunk_by(|row, next| row.values == next.values).all(|same| {
        let ones = same.iter().fold(0, |outputs, row| outputs | row.ones);
        let zeros = same.iter().fold(0, |outputs, row| outputs | row.zeros);
        ones & zeros == 0
    })
}

/// Whether no point is listed with one value by the one and with the other by the other.
fn agree(row: &Row, other: &Row) -> bool {
    let is_apart = row.fixed & other.fixed & (row.values ^ other.values) != 0;
    is_apart || (row.ones & other.zeros | row.zeros & other.ones) == 0
}

// The operations on diagrams of a run are four functions, which are not inlined, so that the
// instructions in each of them can be counted.

#[inline(never)]
fn cares_of(tables: &mut Tables, given: &Description) -> Vec<Care> {
    let cubes: Vec<u32> = given.rows.iter().map(|row| tables.cube(row.fixed, row.values)).collect();
    (0..given.outputs).map(|output| care_of(tables, given, &cubes, output)).collect()
}

#[inline(never)]
fn polynomials_of(tables: &mut Tables, cares: &[Care]) -> Vec<u32> {
    cares.iter().map(|care| tables.least(care.zeros, care.ones)).collect()
}

/// The leading monomials of each output's basis.
#[inline(never)]
fn leads_of(tables: &mut Tables, cares: &[Care]) -> Vec<u32> {
    let mut leads = Vec::new();
    for care in cares {
        let points = tables.union(care.zeros, care.ones);
        let monomials = tables.standard(points);
        leads.push(tables.leads(monomials, 1));
    }
    leads
}

/// The elements of each output's basis, of which the leading monomials are given from the greatest
/// down, from the least up.
#[inline(never)]
fn elements_of(tables: &mut Tables, cares: &[Care], leads: &[Vec<u64>]) -> Vec<Vec<u32>> {
    let mut bases = Vec::new();
    for (care, leads) in cares.iter().zip(leads) {
        let points = tables.union(care.zeros, care.ones);
        bases.push(leads.iter().rev().map(|lead| tables.element(points, *lead)).collect());
    }
    bases
}

/// The care points of an output. A point that is listed as free is none, and in a file that lists
/// no zeros all other points are.
fn care_of(tables: &mut Tables, given: &Description, cubes: &[u32], output: u32) -> Care {
    let mut cover = |outputs_of: fn(&Row) -> u64| {
        let rows = given.rows.iter().zip(cubes);
        let listed = rows.filter(|(row, _)| outputs_of(row) >> output & 1 != 0);
        listed.fold(NONE, |points, (_, cube)| tables.union(points, *cube))
    };
    let (ones, zeros, free) =
        (cover(|row| row.ones), cover(|row| row.zeros), cover(|row| row.free));
    let (from, without) =
        if given.listed.zeros { (zeros, free) } else { (tables.power(), tables.union(ones, free)) };
    Care { zeros: tables.difference(from, without), ones: tables.difference(ones, free) }
}

fn push_line(text: &mut Vec<u8>, names: &[String], left: &str, monomials: &[u64]) {
    text.extend_from_slice(left.as_bytes());
    text.extend_from_slice(b" = ");
    if monomials.is_empty() {
        text.push(b'0');
    }
    for (number, monomial) in monomials.iter().enumerate() {
        if number > 0 {
            text.extend_from_slice(b" + ");
        }
        push_monomial(text, names, *monomial);
    }
    text.push(b'\n');
}

fn push_monomial(text: &mut Vec<u8>, names: &[String], monomial: u64) {
    if monomial == 0 {
        text.push(b'1');
    }
    let mut rest = monomial;
    while rest != 0 {
        if rest != monomial {
            text.push(b'*');
        }
        let behind = rest.ilog2();
        text.extend_from_slice(names[names.len() - 1 - behind as usize].as_bytes());
        rest ^= 1 << behind;
    }
}

#[inline(never)]
fn answer(tables: &Tables, inputs: u32, polynomials: &[u32], bases: &[Vec<u32>]) -> Vec<u8> {
    let names: Vec<String> = (1..=inputs).map(|number| format!("x{number}")).collect();
    let mut text = Vec::new();
    for (place, polynomial) in polynomials.iter().enumerate() {
        let left = format!("f{}", place + 1);
        push_line(&mut text, &names, &left, &tables.members(*polynomial));
        for element in bases.get(place).into_iter().flatten() {
            push_line(&mut text, &names, "0", &tables.members(*element));
        }
    }
    text
}

fn bases_of(tables: &mut Tables, cares: &[Care]) -> Vec<Vec<u32>> {
    let leads = leads_of(tables, cares);
    let listed: Vec<Vec<u64>> = leads.iter().map(|family| tables.members(*family)).collect();
    elements_of(tables, cares, &listed)
}

fn main() {
    let words: Vec<String> = std::env::args().collect();
    let [_, mode, bits] = &words[..] else {
        eprintln!("usage: plain MODE BITS < FILE");
        exit(UNUSABLE)
    };
    let mut text = String::new();
    std::io::stdin().read_to_string(&mut text).expect("a readable file");
    let given = read_description(&text);
    if !is_consistent(&given) {
        eprintln!("plain: a point is listed with both values");
        exit(CONTRADICTED)
    }
    let mut tables = Tables::new(bits.parse().expect("a number of bits"), given.inputs);
    let cares = cares_of(&mut tables, &given);
    let polynomials = polynomials_of(&mut tables, &cares);
    let bases = if mode == "basis" { bases_of(&mut tables, &cares) } else { Vec::new() };
    let answer = answer(&tables, given.inputs, &polynomials, &bases);
    std::io::stdout().write_all(&answer).expect("an output that takes the answer");
    if cfg!(count) {
        eprintln!("{}", tables.looks);
    }
}
