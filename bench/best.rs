// A second and faster baseline in plain Rust. It takes the argument, reads the jobs and prints the bytes of `vine.rs`, and tells the
// same faults and refusals. It is written for speed, within the streaming method (a layer for each generation, no word is ever stored
// whole):
//
// - A layer does not draw from the layer below: each pushes what it makes into the layer above, by batches of modules. Only a module
//   whose rules look right waits, and what follows it.
// - The latest value of an expression is held apart from the others, and a successor without arguments is copied as it stands.
// - The two directions of the turtle are one number, and a table says what a turn makes of it.
// - Digits are written by pairs, into a page that goes out when it is full.
//
// It is run by hand, by `bench/run`, and is no part of the gate: nothing of it is proved, and nothing of the product stands on it.

use std::collections::VecDeque;
use std::fs::File;
use std::io::{self, Read, Write};
use std::mem::take;
use std::os::fd::AsFd;
use std::{env, process};

const LONGEST_JOB: usize = 65_536;
const MOST_MODULES: usize = 16_000_000;
const DEEPEST: usize = 32;
/// So many modules are looked at for a right neighbour.
const AHEAD: usize = 64;
/// No number lies further from 0.
const GREATEST: i32 = 1_000_000;
/// No step of the turtle is longer.
const LONGEST_STEP: i32 = 4_095;
/// No coordinate lies further from 0.
const FARTHEST: i32 = 30_000;

// Words and sinks

/// A letter with up to three parameters, or a bracket. Parameters that do not count are 0.
#[derive(Clone, Copy)]
struct Module {
    letter: u8,
    count: u8,
    params: [i32; 3],
}

/// Where there is no module: no rule has its letter.
const ABSENT: Module = Module { letter: 0, count: 0, params: [0; 3] };

impl Module {
    fn bare(letter: u8) -> Module {
        Module { letter, ..ABSENT }
    }

    fn form(&self) -> Form {
        (self.letter, self.count)
    }
}

#[derive(Clone, Copy)]
struct Fault {
    cause: u8,
    generation: u8,
    place: u32,
}

type Ending = Result<(), Fault>;

/// No more modules are wanted: the ending is known above.
struct Stop;

/// Whatever takes a word in, by batches of modules, and then its ending. After a stop it is given nothing more.
trait Sink {
    fn take(&mut self, batch: &[Module]) -> Result<(), Stop>;
    fn end(&mut self, ending: Ending);
}

fn is_letter(byte: u8) -> bool {
    byte.is_ascii_alphabetic() || b"+-&^\\/|%".contains(&byte)
}

fn is_bracket(byte: u8) -> bool {
    byte == b'[' || byte == b']'
}

fn ranged(n: i32) -> bool {
    (-GREATEST..=GREATEST).contains(&n)
}

/// The brackets open behind a letter or bracket.
fn after(depth: usize, letter: u8) -> usize {
    match letter {
        b'[' => depth + 1,
        b']' => depth - 1,
        _ => depth,
    }
}

/// The number that 1 to 7 digits write.
fn number(text: &[u8]) -> Option<i32> {
    let digits = (1..=7).contains(&text.len()) && text.iter().all(u8::is_ascii_digit);
    digits.then(|| text.iter().fold(0, |n, digit| n * 10 + i32::from(digit - b'0')))
}

// The seed

/// A text whose modules are told one by one.
struct Seed<'a> {
    rest: &'a [u8],
    told: u32,
    depth: usize,
}

/// The bytes of the first module, and those behind.
fn cut(text: &[u8]) -> (&[u8], &[u8]) {
    text.split_at(match text {
        [_, b'(', list @ ..] => list.iter().position(|b| *b == b')').map_or(text.len(), |end| end + 3),
        _ => 1,
    })
}

/// The module that these bytes are, or the cause of a fault.
fn read_module(own: &[u8]) -> Result<Module, u8> {
    let mut module = Module::bare(own[0]);
    let Some(list) = own.get(2..) else {
        return if is_letter(own[0]) || is_bracket(own[0]) { Ok(module) } else { Err(21) };
    };
    let list = list.strip_suffix(b")").filter(|_| is_letter(module.letter)).ok_or(21)?;
    for part in list.split(|b| *b == b',') {
        let param = module.params.get_mut(usize::from(module.count)).ok_or(21)?;
        *param = match part {
            [b'-', digits @ ..] => -number(digits).ok_or(21)?,
            digits => number(digits).ok_or(21)?,
        };
        module.count += 1;
    }
    if module.params.into_iter().all(ranged) { Ok(module) } else { Err(22) }
}

impl Seed<'_> {
    fn draw(&mut self) -> Result<Option<Module>, Fault> {
        let place = self.told + 1;
        let fault = |cause| Fault { cause, generation: 0, place };
        if self.rest.is_empty() {
            return if self.depth == 0 { Ok(None) } else { Err(fault(25)) };
        }
        let (own, rest) = cut(self.rest);
        let module = read_module(own).map_err(fault)?;
        match module.letter {
            b']' if self.depth == 0 => return Err(fault(23)),
            b'[' if self.depth == DEEPEST => return Err(fault(24)),
            letter => self.depth = after(self.depth, letter),
        }
        self.rest = rest;
        self.told = place;
        Ok(Some(module))
    }

    /// Passes all modules on, and the ending.
    fn feed<N: Sink>(&mut self, next: &mut N) {
        let ending = loop {
            match self.draw() {
                Ok(Some(module)) => {
                    if next.take(&[module]).is_err() {
                        return;
                    }
                }
                Ok(None) => break Ok(()),
                Err(fault) => break Err(fault),
            }
        };
        next.end(ending);
    }
}

// The pruner

/// Passes a word on without what a `%` cuts off: the rest of its branch.
struct Pruner<N> {
    next: N,
    /// While modules are dropped: how many brackets opened since the `%` are still open.
    dropping: Option<usize>,
}

impl<N> Pruner<N> {
    /// A batch without the modules at its front that are still cut off.
    fn kept<'m>(&mut self, batch: &'m [Module]) -> &'m [Module] {
        let Some(open) = &mut self.dropping else {
            return batch;
        };
        for (at, module) in batch.iter().enumerate() {
            match module.letter {
                b'[' => *open += 1,
                b']' if *open == 0 => {
                    self.dropping = None;
                    return &batch[at..];
                }
                b']' => *open -= 1,
                _ => {}
            }
        }
        &[]
    }
}

impl<N: Sink> Sink for Pruner<N> {
    fn take(&mut self, batch: &[Module]) -> Result<(), Stop> {
        // most batches have no cut, which is told soonest without a stop at the first
        let cuts = batch.iter().fold(false, |cuts, module| cuts | (module.letter == b'%'));
        if !cuts && self.dropping.is_none() {
            return self.next.take(batch);
        }
        let mut rest = self.kept(batch);
        while let Some(at) = rest.iter().position(|module| module.letter == b'%') {
            self.next.take(&rest[..at])?;
            self.dropping = Some(0);
            rest = self.kept(&rest[at + 1..]);
        }
        self.next.take(rest)
    }

    fn end(&mut self, ending: Ending) {
        self.next.end(ending);
    }
}

// Expressions

/// A place of postfix code. Slots are parameters: 0 to 2 of the left neighbour, 3 to 5 of the module, 6 to 8 of the right neighbour.
#[derive(Clone, Copy)]
enum Op {
    Number(i32),
    Slot(u8),
    Negate,
    /// `+`, `-`, `*` or `/`.
    Join(u8),
    /// Whether what is less, equal or more is in the relation.
    Compare([bool; 3]),
}

#[inline(always)]
fn joined(sign: u8, x: i32, y: i32) -> Result<i32, u8> {
    let n = match sign {
        b'+' => i64::from(x) + i64::from(y),
        b'-' => i64::from(x) - i64::from(y),
        b'*' => i64::from(x) * i64::from(y),
        // a quotient is no further from 0 than x
        _ => return x.checked_div(y).ok_or(31),
    };
    if n.unsigned_abs() <= GREATEST.unsigned_abs().into() { Ok(n as i32) } else { Err(32) }
}

/// The parameters of the three modules; no code names a slot beyond them, so that one may be reached without a check.
type Slots = [i32; 16];
/// A line is too short for code that has so many values at once. The place 0 is for what stands under the first value.
type Stack = [i32; 256];

/// Works code out up to the first comparison that is false: whether there is none. The values that are left stand on the stack from 1 on.
#[inline(always)]
fn run(code: &[Op], slots: &Slots, stack: &mut Stack) -> Result<bool, u8> {
    // the latest value is no part of the stack yet
    let mut latest = 0;
    let mut size = 0_usize;
    for op in code {
        match *op {
            Op::Number(n) => {
                stack[size % 256] = latest;
                size += 1;
                latest = n;
            }
            Op::Slot(at) => {
                stack[size % 256] = latest;
                size += 1;
                latest = slots[usize::from(at % 16)];
            }
            Op::Negate => latest = -latest,
            Op::Join(sign) => {
                size -= 1;
                latest = joined(sign, stack[size % 256], latest)?;
            }
            Op::Compare(relation) => {
                let (x, y) = (stack[(size - 1) % 256], latest);
                size -= 2;
                latest = stack[size % 256];
                if !relation[usize::from(x >= y) + usize::from(x > y)] {
                    return Ok(false);
                }
            }
        }
    }
    stack[size % 256] = latest;
    Ok(true)
}

// Books

/// A letter and how many parameters.
type Form = (u8, u8);

/// Whether a side agrees with the neighbour there: without a form it agrees with anything.
fn beside(form: Option<Form>, neighbour: &Module) -> bool {
    form.is_none_or(|form| neighbour.form() == form)
}

/// A module of a successor; the code leaves its parameters on the stack.
struct Piece {
    module: Module,
    code: Vec<Op>,
}

struct Rule {
    printed: i32,
    left: Option<Form>,
    own: Form,
    right: Option<Form>,
    guard: Vec<Op>,
    pieces: Vec<Piece>,
    /// The modules of the successor, where none of them has code.
    plain: Option<Vec<Module>>,
    /// How many places of code all of it takes.
    places: usize,
    /// How deep the brackets of the successor nest.
    depth: usize,
}

impl Rule {
    /// Both sides, left only, right only, none; then the lower printed number.
    fn rank(&self) -> (bool, bool, i32) {
        (self.left.is_none(), self.right.is_none(), self.printed)
    }
}

/// Three tables with a place for each byte.
struct Book {
    /// The rules for a letter, as they are tried.
    rules: [Vec<Rule>; 256],
    /// For which numbers of parameters one of them looks right.
    looks: [[bool; 4]; 256],
    ignored: [bool; 256],
}

impl Book {
    /// The book of some lines, or the number of the first that is refused.
    fn read(lines: &[u8]) -> Result<Book, usize> {
        let mut book = Book { rules: [const { Vec::new() }; 256], looks: [[false; 4]; 256], ignored: [false; 256] };
        for (at, line) in (3_usize..).zip(lines.split(|b| *b == b'\n')) {
            if !line.is_empty() {
                book.load(line).ok_or(at)?;
            }
        }
        book.rules.iter_mut().for_each(|rules| rules.sort_by_key(Rule::rank));
        Ok(book)
    }

    /// Takes a line, or none where it is refused.
    fn load(&mut self, line: &[u8]) -> Option<()> {
        if line.len() > 200 {
            return None;
        }
        let mut parser = Parser { rest: line, names: Vec::new(), code: Vec::new() };
        if parser.takes(b"~") {
            loop {
                self.ignored[usize::from(parser.byte(is_letter)?)] = true;
                if parser.peek().is_empty() {
                    return Some(());
                }
            }
        }
        let rule = parser.rule()?;
        let others: Vec<&Rule> = self.rules.iter().flatten().collect();
        let places: usize = others.iter().map(|other| other.places).sum();
        let known = others.iter().any(|other| other.printed == rule.printed);
        if known || others.len() == 48 || places + rule.places > 1024 {
            return None;
        }
        let (letter, count) = (usize::from(rule.own.0), usize::from(rule.own.1));
        self.looks[letter][count] |= rule.right.is_some();
        self.rules[letter].push(rule);
        Some(())
    }
}

// Generations

/// So many modules are passed on together at most.
const BATCH: usize = 256;
/// The longest successor.
const LONGEST_SUCCESSOR: usize = 24;

/// What a look for a right neighbour has come to.
enum Look {
    Settled(Module),
    /// Modules that are still to come decide.
    Open,
    /// No module of the next 64 decides.
    Lost,
}

/// Passes on the next generation of the word that it takes in.
struct Generation<'b, N> {
    next: N,
    book: &'b Book,
    number: u8,
    /// Modules that wait until the right neighbour of the first is settled.
    window: VecDeque<Module>,
    /// How many behind the first were looked at, and how many brackets they leave open.
    looked: usize,
    open: usize,
    /// The left neighbour at each depth.
    lefts: [Module; DEEPEST + 1],
    depth: usize,
    /// The place of the module in hand, counted from 1, and how many modules are in the result.
    place: u32,
    produced: usize,
    /// The modules that are to be passed on, and how many they are.
    batch: [Module; BATCH],
    held: usize,
    stack: Stack,
}

impl<'b, N: Sink> Generation<'b, N> {
    fn new(next: N, book: &'b Book, number: u8) -> Generation<'b, N> {
        Generation {
            next,
            book,
            number,
            window: VecDeque::with_capacity(AHEAD + 1),
            looked: 0,
            open: 0,
            lefts: [ABSENT; DEEPEST + 1],
            depth: 0,
            place: 0,
            produced: 0,
            batch: [ABSENT; BATCH],
            held: 0,
            stack: [0; 256],
        }
    }

    /// Passes on what is held.
    fn flush(&mut self) -> Result<(), Stop> {
        let held = take(&mut self.held);
        self.next.take(&self.batch[..held])
    }

    /// Passes on what is held, and the ending behind it.
    fn close(&mut self, ending: Ending) {
        if self.flush().is_ok() {
            self.next.end(ending);
        }
    }

    /// The word ends at the module in hand, by a fault.
    #[cold]
    fn broken(&mut self, cause: u8) -> Stop {
        self.close(Err(Fault { cause, generation: self.number, place: self.place }));
        Stop
    }

    /// Writes what a rule makes of the module in hand behind what is held.
    #[inline(always)]
    fn write(&mut self, rule: &Rule, slots: &Slots) -> Result<(), u8> {
        if let Some(plain) = &rule.plain {
            self.batch[self.held..self.held + plain.len()].copy_from_slice(plain);
            return Ok(());
        }
        let places = &mut self.batch[self.held..self.held + rule.pieces.len()];
        for (place, piece) in places.iter_mut().zip(&rule.pieces) {
            *place = piece.module;
            if !piece.code.is_empty() {
                run(&piece.code, slots, &mut self.stack)?;
                for (at, param) in place.params.iter_mut().enumerate() {
                    *param = if at < usize::from(piece.module.count) { self.stack[at + 1] } else { 0 };
                }
            }
        }
        Ok(())
    }

    /// Tries the rules for the letter in hand: how many modules it grows to, or none where it stays. They stand behind what is held.
    #[inline(always)]
    fn grow(&mut self, module: &Module, right: &Module) -> Result<Option<usize>, u8> {
        let left = &self.lefts[self.depth];
        let mut slots = [0; 16];
        slots[..3].copy_from_slice(&left.params);
        slots[3..6].copy_from_slice(&module.params);
        slots[6..9].copy_from_slice(&right.params);
        let book = self.book;
        for rule in &book.rules[usize::from(module.letter)] {
            let left = &self.lefts[self.depth];
            let agrees = rule.own == module.form() && beside(rule.left, left) && beside(rule.right, right);
            if !agrees || !rule.guard.is_empty() && !run(&rule.guard, &slots, &mut self.stack)? {
                continue;
            }
            self.write(rule, &slots)?;
            return if self.depth + rule.depth > DEEPEST { Err(33) } else { Ok(Some(rule.pieces.len())) };
        }
        Ok(None)
    }

    /// What a module that may grow becomes. It is the left neighbour of what follows then.
    #[inline(always)]
    fn replace(&mut self, module: &Module, right: &Module) -> Result<Option<usize>, Stop> {
        let grown = match self.grow(module, right) {
            Ok(grown) => grown,
            Err(cause) => return Err(self.broken(cause)),
        };
        if !self.book.ignored[usize::from(module.letter)] {
            self.lefts[self.depth] = *module;
        }
        Ok(grown)
    }

    /// Takes a module in hand, whose right neighbour is settled.
    #[inline(always)]
    fn turn(&mut self, module: &Module, right: &Module) -> Result<(), Stop> {
        self.place += 1;
        if self.held > BATCH - LONGEST_SUCCESSOR {
            self.flush()?;
        }
        let grown = match module.letter {
            b'[' => {
                self.lefts[self.depth + 1] = self.lefts[self.depth];
                self.depth += 1;
                None
            }
            b']' => {
                self.depth -= 1;
                None
            }
            _ => self.replace(module, right)?,
        };
        let count = grown.unwrap_or_else(|| {
            self.batch[self.held] = *module;
            1
        });
        self.produced += count;
        if self.produced > MOST_MODULES {
            return Err(self.broken(34));
        }
        self.held += count;
        Ok(())
    }

    /// Whether a rule for such a module names a right neighbour.
    #[inline(always)]
    fn looks(&self, module: &Module) -> bool {
        self.book.looks[usize::from(module.letter)][usize::from(module.count)]
    }

    /// Goes on with the look of the first module that waits.
    #[inline(always)]
    fn look(&mut self) -> Look {
        while self.looked < AHEAD {
            let Some(module) = self.window.get(self.looked + 1) else {
                return Look::Open;
            };
            self.looked += 1;
            match module.letter {
                b'[' => self.open += 1,
                b']' if self.open == 0 => return Look::Settled(ABSENT),
                b']' => self.open -= 1,
                letter if self.open == 0 && !self.book.ignored[usize::from(letter)] => return Look::Settled(*module),
                _ => {}
            }
        }
        Look::Lost
    }

    /// Takes in hand what is settled of the modules that wait. At a clean end all are; a fault below ends the word at the first that is not.
    #[inline(always)]
    fn settle(&mut self, ending: Option<Ending>) -> Result<(), Stop> {
        while let Some(first) = self.window.front().copied() {
            let mut right = ABSENT;
            if self.looks(&first) {
                match (self.look(), ending) {
                    (Look::Settled(module), _) => right = module,
                    (Look::Open, Some(Ok(()))) => {}
                    (Look::Open, None) => return Ok(()),
                    (Look::Open, Some(fault)) => {
                        self.close(fault);
                        return Err(Stop);
                    }
                    (Look::Lost, _) => {
                        self.place += 1;
                        return Err(self.broken(30));
                    }
                }
                (self.looked, self.open) = (0, 0);
            }
            self.window.pop_front();
            self.turn(&first, &right)?;
        }
        Ok(())
    }
}

impl<N: Sink> Sink for Generation<'_, N> {
    fn take(&mut self, batch: &[Module]) -> Result<(), Stop> {
        for module in batch {
            if self.window.is_empty() && !self.looks(module) {
                self.turn(module, &ABSENT)?;
            } else {
                self.window.push_back(*module);
                self.settle(None)?;
            }
        }
        Ok(())
    }

    fn end(&mut self, ending: Ending) {
        if self.settle(Some(ending)).is_ok() {
            self.close(ending);
        }
    }
}

// Lines of a book; what is refused is none

/// The rank of an operator, and its code.
fn operator(token: &[u8]) -> Option<(u8, Op)> {
    match token {
        b"<" => Some((0, Op::Compare([true, false, false]))),
        b"<=" => Some((0, Op::Compare([true, true, false]))),
        b"=" => Some((0, Op::Compare([false, true, false]))),
        b"!=" => Some((0, Op::Compare([true, false, true]))),
        b">=" => Some((0, Op::Compare([false, true, true]))),
        b">" => Some((0, Op::Compare([false, false, true]))),
        [sign @ (b'+' | b'-')] => Some((1, Op::Join(*sign))),
        [sign @ (b'*' | b'/')] => Some((2, Op::Join(*sign))),
        _ => None,
    }
}

/// What is left of a line, the names of its forms with their slots, and the code not yet taken into a guard or a piece.
struct Parser<'a> {
    rest: &'a [u8],
    names: Vec<(u8, u8)>,
    code: Vec<Op>,
}

impl<'a> Parser<'a> {
    /// The next token, or nothing at the end of the line.
    fn peek(&self) -> &'a [u8] {
        let rest = &self.rest[self.rest.iter().take_while(|b| **b == b' ').count()..];
        match rest {
            [b'0'..=b'9', ..] => &rest[..rest.iter().take_while(|b| b.is_ascii_digit()).count()],
            [b'-', b'>', ..] | [b'<' | b'>' | b'!', b'=', ..] => &rest[..2],
            _ => &rest[..rest.len().min(1)],
        }
    }

    fn next(&mut self) -> &'a [u8] {
        let token = self.peek();
        let gap = self.rest.iter().take_while(|b| **b == b' ').count();
        self.rest = &self.rest[gap + token.len()..];
        token
    }

    fn takes(&mut self, sign: &[u8]) -> bool {
        let stands = self.peek() == sign;
        if stands {
            self.next();
        }
        stands
    }

    fn expect(&mut self, sign: &[u8]) -> Option<()> {
        self.takes(sign).then_some(())
    }

    fn byte(&mut self, known: fn(u8) -> bool) -> Option<u8> {
        match self.next() {
            [byte] if known(*byte) => Some(*byte),
            _ => None,
        }
    }

    /// One to three items in parentheses, if there are any: how many.
    fn list(&mut self, mut item: impl FnMut(&mut Self, u8) -> Option<()>) -> Option<u8> {
        let mut count = 0;
        if self.takes(b"(") {
            while count == 0 || self.takes(b",") {
                item(self, count)?;
                count += 1;
            }
            self.expect(b")")?;
        }
        (count <= 3).then_some(count)
    }

    /// A form, whose names stand for the slots from this one on.
    fn form(&mut self, slot: u8) -> Option<Form> {
        let letter = self.byte(is_letter)?;
        let count = self.list(|parser, at| {
            let name = parser.byte(|b| b.is_ascii_lowercase())?;
            parser.names.push((name, slot + at));
            Some(())
        })?;
        Some((letter, count))
    }

    /// An operand with a `-` in front or none, and what is joined to it by operators of this rank or a higher one.
    fn sum(&mut self, least: u8) -> Option<()> {
        let negated = self.takes(b"-");
        match self.next() {
            b"(" => {
                self.sum(1)?;
                self.expect(b")")?;
            }
            [name @ b'a'..=b'z'] => {
                let (_, slot) = self.names.iter().find(|(given, _)| given == name)?;
                self.code.push(Op::Slot(*slot));
            }
            token => self.code.push(Op::Number(number(token).filter(|n| ranged(*n))?)),
        }
        self.code.extend(negated.then_some(Op::Negate));
        while let Some((rank, op)) = operator(self.peek()).filter(|(rank, _)| *rank >= least) {
            self.next();
            self.sum(rank + 1)?;
            self.code.push(op);
        }
        Some(())
    }

    fn comparison(&mut self) -> Option<()> {
        self.sum(1)?;
        let (_, relation) = operator(self.next()).filter(|(rank, _)| *rank == 0)?;
        self.sum(1)?;
        self.code.push(relation);
        Some(())
    }

    fn piece(&mut self) -> Option<Piece> {
        let mut module = Module::bare(self.byte(|b| is_letter(b) || is_bracket(b))?);
        if is_letter(module.letter) {
            module.count = self.list(|parser, _| parser.sum(1))?;
        }
        Some(Piece { module, code: take(&mut self.code) })
    }

    fn rule(&mut self) -> Option<Rule> {
        let printed = number(self.next()).filter(|n| (1..=999).contains(n))?;
        self.expect(b":")?;
        let mut left = None;
        let mut own = self.form(3)?;
        if self.takes(b"<") {
            self.names.iter_mut().for_each(|(_, slot)| *slot -= 3);
            left = Some(own);
            own = self.form(3)?;
        }
        let right = if self.takes(b">") { Some(self.form(6)?) } else { None };
        if self.names.iter().any(|(name, _)| self.names.iter().filter(|(other, _)| name == other).count() > 1) {
            return None;
        }
        if self.takes(b"?") {
            self.comparison()?;
            while self.takes(b"&") {
                self.comparison()?;
            }
        }
        let guard = take(&mut self.code);
        self.expect(b"->")?;
        let (mut pieces, mut open, mut depth) = (Vec::new(), 0, 0);
        while !self.peek().is_empty() {
            let piece = self.piece()?;
            if piece.module.letter == b']' && open == 0 {
                return None;
            }
            open = after(open, piece.module.letter);
            depth = depth.max(open);
            pieces.push(piece);
        }
        let places = guard.len() + pieces.iter().map(|piece| piece.code.len()).sum::<usize>();
        let bare = pieces.iter().all(|piece| piece.code.is_empty());
        let plain = bare.then(|| pieces.iter().map(|piece| piece.module).collect());
        let rule = Rule { printed, left, own, right, guard, pieces, plain, places, depth };
        (open == 0 && rule.pieces.len() <= 24).then_some(rule)
    }
}

// The turtle

/// A place, and two directions at right angles. With directions by number, 0 +x, 1 -x, 2 +y, 3 -y, 4 +z, 5 -z, an orientation is 4 times
/// the heading, and which of the other four the left is.
#[derive(Clone, Copy)]
struct Pose {
    place: [i32; 3],
    orientation: u8,
    /// Whether the place is in the box of what was drawn. Only a move leaves it, and the first segment starts it.
    boxed: bool,
}

/// The heading is +y, and the left -x.
const HOME: Pose = Pose { place: [0; 3], orientation: orientation(2, 1), boxed: false };

const fn opposite(direction: u8) -> u8 {
    direction ^ 1
}

/// The cross product of two directions at right angles.
const fn cross(a: u8, b: u8) -> u8 {
    let (p, q) = (a / 2, b / 2);
    // x, y, z, x is the order that leads to the positive side
    let backwards = ((p + 1) % 3 != q) as u8;
    2 * (3 - p - q) + (backwards ^ (a & 1) ^ (b & 1))
}

const fn orientation(heading: u8, left: u8) -> u8 {
    4 * heading + if left / 2 < heading / 2 { left } else { left - 2 }
}

// What a letter does. Numbers below `STAY` are turns, in the order of a row of `TURNS`.
const STAY: u8 = 7;
const DRAW: u8 = 8;
const MOVE: u8 = 9;
const OPEN: u8 = 10;
const CLOSE: u8 = 11;

static ACTS: [u8; 256] = {
    let mut acts = [STAY; 256];
    acts[b'+' as usize] = 0;
    acts[b'-' as usize] = 1;
    acts[b'&' as usize] = 2;
    acts[b'^' as usize] = 3;
    acts[b'\\' as usize] = 4;
    acts[b'/' as usize] = 5;
    acts[b'|' as usize] = 6;
    acts[b'F' as usize] = DRAW;
    acts[b'f' as usize] = MOVE;
    acts[b'[' as usize] = OPEN;
    acts[b']' as usize] = CLOSE;
    acts
};

/// What `+ - & ^ \ / |` and no turn make of each orientation.
static TURNS: [[u8; 8]; 24] = {
    let mut turns = [[0; 8]; 24];
    let mut at = 0;
    while at < 24 {
        let (heading, rest) = (at / 4, at % 4);
        let left = if rest / 2 < heading / 2 { rest } else { rest + 2 };
        let up = cross(heading, left);
        turns[at as usize] = [
            orientation(left, opposite(heading)),
            orientation(opposite(left), heading),
            orientation(opposite(up), left),
            orientation(up, left),
            orientation(heading, opposite(up)),
            orientation(heading, up),
            orientation(opposite(heading), opposite(left)),
            at,
        ];
        at += 1;
    }
    turns
};

/// Where the turtle is, the poses stored at open brackets, and what the report tells.
struct Plot {
    pose: Pose,
    stored: [Pose; DEEPEST],
    depth: usize,
    deepest: usize,
    generation: u8,
    modules: u32,
    segments: u32,
    length: u64,
    /// The box, which counts from the first segment on.
    least: [i32; 3],
    greatest: [i32; 3],
    ending: Ending,
}

impl Plot {
    fn new(generation: u8) -> Plot {
        Plot {
            pose: HOME,
            stored: [HOME; DEEPEST],
            depth: 0,
            deepest: 0,
            generation,
            modules: 0,
            segments: 0,
            length: 0,
            least: [i32::MAX; 3],
            greatest: [i32::MIN; 3],
            ending: Ok(()),
        }
    }

    /// Goes ahead, or tells the limit that this would break: the axis, and how far.
    #[inline(always)]
    fn step(&mut self, module: &Module) -> Result<(usize, i32), u8> {
        let length = if module.count == 0 { 1 } else { module.params[0] };
        if !(0..=LONGEST_STEP).contains(&length) {
            return Err(41);
        }
        let axis = usize::from(self.pose.orientation / 8) % 3;
        let coordinate = &mut self.pose.place[axis];
        let end = if self.pose.orientation & 4 == 0 { *coordinate + length } else { *coordinate - length };
        if !(-FARTHEST..=FARTHEST).contains(&end) {
            return Err(42);
        }
        *coordinate = end;
        Ok((axis, length))
    }

    /// Makes the box hold a coordinate.
    #[inline(always)]
    fn widen(&mut self, axis: usize, coordinate: i32) {
        self.least[axis] = self.least[axis].min(coordinate);
        self.greatest[axis] = self.greatest[axis].max(coordinate);
    }

    /// Goes ahead and draws. Where the start is in the box, only the axis of the segment can widen it.
    #[inline(always)]
    fn draw(&mut self, module: &Module) -> Result<(), u8> {
        let start = self.pose;
        let (axis, length) = self.step(module)?;
        if length == 0 {
            return Ok(());
        }
        self.segments += 1;
        self.length += u64::from(length.unsigned_abs());
        if !start.boxed {
            (0..3).for_each(|axis| self.widen(axis, start.place[axis]));
            self.pose.boxed = true;
        }
        self.widen(axis, self.pose.place[axis]);
        Ok(())
    }

    /// Follows a module, or tells the limit that it would break.
    #[inline(always)]
    fn follow(&mut self, module: &Module) -> Result<(), u8> {
        match ACTS[usize::from(module.letter)] {
            DRAW => self.draw(module)?,
            MOVE => {
                self.step(module)?;
                self.pose.boxed = false;
            }
            OPEN => {
                self.stored[self.depth] = self.pose;
                self.depth += 1;
                self.deepest = self.deepest.max(self.depth);
            }
            CLOSE => {
                self.depth -= 1;
                self.pose = self.stored[self.depth];
            }
            turn => self.pose.orientation = TURNS[usize::from(self.pose.orientation)][usize::from(turn % 8)],
        }
        self.modules += 1;
        Ok(())
    }

    /// The report.
    fn write<W: Write>(&self, out: &mut W) -> io::Result<()> {
        writeln!(out, "modules {}\nsegments {}\nlength {}", self.modules, self.segments, self.length)?;
        let ([a, c, e], [b, d, f]) = (self.least, self.greatest);
        match self.segments {
            0 => writeln!(out, "box none")?,
            _ => writeln!(out, "box {a} {b} {c} {d} {e} {f}")?,
        }
        writeln!(out, "deepest {}", self.deepest)?;
        write_ending(self.ending, out)
    }
}

impl Sink for &mut Plot {
    fn take(&mut self, batch: &[Module]) -> Result<(), Stop> {
        for module in batch {
            if let Err(cause) = self.follow(module) {
                self.ending = Err(Fault { cause, generation: self.generation, place: self.modules + 1 });
                return Err(Stop);
            }
        }
        Ok(())
    }

    fn end(&mut self, ending: Ending) {
        self.ending = ending;
    }
}

// Writing

/// So many bytes are held. As this is a power of two, a place is kept on the page without a check.
const PAGE: usize = 1 << 16;
/// No module takes more bytes.
const LONGEST_MODULE: usize = 32;

/// The word is written by pages. Where that fails, nothing more of it is.
struct Page {
    out: File,
    bytes: Box<[u8; PAGE]>,
    held: usize,
    written: io::Result<()>,
    ending: Ending,
}

/// The two digits of each number below 100.
static PAIRS: [[u8; 2]; 100] = {
    let mut pairs = [[0; 2]; 100];
    let mut at = 0;
    while at < 100 {
        pairs[at] = [b'0' + (at / 10) as u8, b'0' + (at % 10) as u8];
        at += 1;
    }
    pairs
};

fn digits(n: u32) -> usize {
    1 + [10, 100, 1_000, 10_000, 100_000, 1_000_000].into_iter().map(|least| usize::from(n >= least)).sum::<usize>()
}

/// Writes a number from a place on: the place behind it.
#[inline(always)]
fn write_number(bytes: &mut [u8; PAGE], at: usize, number: i32) -> usize {
    bytes[at % PAGE] = b'-';
    let start = at + usize::from(number < 0);
    let mut n = number.unsigned_abs();
    let behind = start + digits(n);
    let mut end = behind;
    while n >= 10 {
        let [tens, ones] = PAIRS[n as usize % 100];
        n /= 100;
        bytes[(end - 1) % PAGE] = ones;
        bytes[(end - 2) % PAGE] = tens;
        end -= 2;
    }
    if end > start {
        bytes[(end - 1) % PAGE] = b'0' + n as u8;
    }
    behind
}

/// Writes a module from a place on: the place behind it.
#[inline(always)]
fn write_module(bytes: &mut [u8; PAGE], at: usize, module: &Module) -> usize {
    bytes[at % PAGE] = module.letter;
    if module.count == 0 {
        return at + 1;
    }
    let mut end = at + 1;
    for param in 0..usize::from(module.count).min(3) {
        bytes[end % PAGE] = if param == 0 { b'(' } else { b',' };
        end = write_number(bytes, end + 1, module.params[param]);
    }
    bytes[end % PAGE] = b')';
    end + 1
}

impl Page {
    fn new(out: File) -> Page {
        Page { out, bytes: Box::new([0; PAGE]), held: 0, written: Ok(()), ending: Ok(()) }
    }

    #[cold]
    fn flush(&mut self) -> Result<(), Stop> {
        let held = take(&mut self.held);
        self.written = self.out.write_all(&self.bytes[..held]);
        if self.written.is_ok() { Ok(()) } else { Err(Stop) }
    }

    /// Writes what is still held, and how the word ends.
    fn finish(mut self) -> io::Result<()> {
        self.written?;
        let mut rest = self.bytes[..self.held].to_vec();
        rest.push(b'\n');
        write_ending(self.ending, &mut rest)?;
        self.out.write_all(&rest)
    }
}

impl Sink for &mut Page {
    fn take(&mut self, batch: &[Module]) -> Result<(), Stop> {
        if self.held + batch.len() * LONGEST_MODULE > PAGE {
            self.flush()?;
        }
        let mut at = self.held;
        for module in batch {
            at = write_module(&mut self.bytes, at, module);
        }
        self.held = at;
        Ok(())
    }

    fn end(&mut self, ending: Ending) {
        self.ending = ending;
    }
}

// The program

#[derive(Clone, Copy)]
enum Program {
    Unroll,
    Grow,
}

/// The number of generations, the seed text and the lines of the book.
fn read_job(bytes: &[u8]) -> Option<(u8, &[u8], &[u8])> {
    let [digit @ b'0'..=b'8', b'\n', rest @ ..] = bytes else {
        return None;
    };
    let end = rest.iter().position(|b| *b == b'\n').unwrap_or(rest.len());
    let lines = rest.get(end + 1..).unwrap_or_default();
    (bytes.len() <= LONGEST_JOB).then_some((digit - b'0', &rest[..end], lines))
}

fn write_ending<W: Write>(ending: Ending, out: &mut W) -> io::Result<()> {
    match ending {
        Ok(()) => writeln!(out, "end clean"),
        Err(fault) => writeln!(out, "end fault {} {} {}", fault.cause, fault.generation, fault.place),
    }
}

/// Layers of these numbers under what they pass on to, the one of the first number at the bottom.
macro_rules! layers {
    ($top:expr, $book:expr;) => { $top };
    ($top:expr, $book:expr; $number:literal $($more:literal)*) => {
        Generation::new(layers!($top, $book; $($more)*), $book, $number)
    };
}

/// Passes on so many generations of a seed, pruned.
fn feed<N: Sink>(mut seed: Seed, book: &Book, generations: u8, next: N) {
    let top = Pruner { next, dropping: None };
    match generations {
        0 => seed.feed(&mut { top }),
        1 => seed.feed(&mut layers!(top, book; 1)),
        2 => seed.feed(&mut layers!(top, book; 1 2)),
        3 => seed.feed(&mut layers!(top, book; 1 2 3)),
        4 => seed.feed(&mut layers!(top, book; 1 2 3 4)),
        5 => seed.feed(&mut layers!(top, book; 1 2 3 4 5)),
        6 => seed.feed(&mut layers!(top, book; 1 2 3 4 5 6)),
        7 => seed.feed(&mut layers!(top, book; 1 2 3 4 5 6 7)),
        _ => seed.feed(&mut layers!(top, book; 1 2 3 4 5 6 7 8)),
    }
}

fn main() -> io::Result<()> {
    let program = match env::args().nth(1).as_deref() {
        Some("unroll") => Program::Unroll,
        Some("grow") => Program::Grow,
        _ => {
            eprintln!("usage: best unroll|grow < job");
            process::exit(2);
        }
    };
    let mut bytes = Vec::new();
    io::stdin().lock().take(LONGEST_JOB as u64 + 1).read_to_end(&mut bytes)?;
    // by itself, standard output would look for line feeds
    let mut out = File::from(io::stdout().as_fd().try_clone_to_owned()?);
    let Some((generations, seed, lines)) = read_job(&bytes) else {
        return writeln!(out, "refused 58 line 1");
    };
    let book = match Book::read(lines) {
        Ok(book) => book,
        Err(line) => return writeln!(out, "refused 2 line {line}"),
    };
    let seed = Seed { rest: seed, told: 0, depth: 0 };
    match program {
        Program::Unroll => {
            let mut page = Page::new(out);
            feed(seed, &book, generations, &mut page);
            page.finish()
        }
        Program::Grow => {
            let mut plot = Plot::new(generations);
            feed(seed, &book, generations, &mut plot);
            let mut report = Vec::new();
            plot.write(&mut report)?;
            out.write_all(&report)
        }
    }
}
