// A baseline in plain Rust to time the product's `unroll` and `grow` against. Its one argument says which of them it is: `unroll`
// or `grow`. It reads the same jobs, grows by the same streaming method (a layer for each generation over a seed, a pruner on top,
// no word is ever stored whole), and prints the same bytes: the word, or the report of a turtle that follows it. It is run by hand,
// by `bench/run`, and is no part of the gate: nothing of it is proved, and nothing of the product stands on it.
//
// It tells the faults 21 to 25, 30 to 34, 41 and 42; no job is long enough for the fault 20 of a seed. What is no job it refuses by
// 58. A line is refused exactly where the product refuses it, so that both grow by the same books, but always by 2, whatever is
// wrong.

use std::collections::VecDeque;
use std::io::{self, BufWriter, Read, Write};
use std::mem::take;
use std::{env, process};

const LONGEST_JOB: usize = 65_536;
const MOST_MODULES: usize = 16_000_000;
const DEEPEST: usize = 32;
/// So many modules are looked at for a right neighbour.
const AHEAD: usize = 64;
/// No number lies further from 0.
const GREATEST: i32 = 1_000_000;
/// No step of the turtle is longer.
const LONGEST_STEP: i32 = 4_095;
/// No coordinate lies further from 0.
const FARTHEST: i32 = 30_000;

// Words and sources

/// A letter with up to three parameters, or a bracket. Parameters that do not count are 0.
#[derive(Clone, Copy)]
struct Module {
    letter: u8,
    count: u8,
    params: [i32; 3],
}

impl Module {
    fn bare(letter: u8) -> Module {
        Module { letter, count: 0, params: [0; 3] }
    }

    fn form(&self) -> Form {
        (self.letter, self.count)
    }

    fn write<W: Write>(&self, out: &mut W) -> io::Result<()> {
        out.write_all(&[self.letter])?;
        let [a, b, c] = self.params;
        match self.count {
            0 => Ok(()),
            1 => write!(out, "({a})"),
            2 => write!(out, "({a},{b})"),
            _ => write!(out, "({a},{b},{c})"),
        }
    }
}

struct Fault {
    cause: u8,
    generation: u8,
    place: u32,
}

/// Whatever tells a word, one module at a time, and none at its end. It is not asked again after a fault.
///
/// Draws are always inlined: with two programs that draw, the compiler would not do so by itself, and both would be slower.
trait Source {
    fn draw(&mut self) -> Result<Option<Module>, Fault>;
}

fn is_letter(byte: u8) -> bool {
    byte.is_ascii_alphabetic() || b"+-&^\\/|%".contains(&byte)
}

fn is_bracket(byte: u8) -> bool {
    byte == b'[' || byte == b']'
}

fn ranged(n: i32) -> bool {
    (-GREATEST..=GREATEST).contains(&n)
}

/// The brackets open behind a letter or bracket.
fn after(depth: usize, letter: u8) -> usize {
    match letter {
        b'[' => depth + 1,
        b']' => depth - 1,
        _ => depth,
    }
}

/// The number that 1 to 7 digits write.
fn number(text: &[u8]) -> Option<i32> {
    let digits = (1..=7).contains(&text.len()) && text.iter().all(u8::is_ascii_digit);
    digits.then(|| text.iter().fold(0, |n, digit| n * 10 + i32::from(digit - b'0')))
}

// The seed

/// A text as a source of modules.
struct Seed<'a> {
    rest: &'a [u8],
    told: u32,
    depth: usize,
}

/// The bytes of the first module, and those behind.
fn cut(text: &[u8]) -> (&[u8], &[u8]) {
    text.split_at(match text {
        [_, b'(', list @ ..] => list.iter().position(|b| *b == b')').map_or(text.len(), |end| end + 3),
        _ => 1,
    })
}

/// The module that these bytes are, or the cause of a fault.
fn read_module(own: &[u8]) -> Result<Module, u8> {
    let mut module = Module::bare(own[0]);
    let Some(list) = own.get(2..) else {
        return if is_letter(own[0]) || is_bracket(own[0]) { Ok(module) } else { Err(21) };
    };
    let list = list.strip_suffix(b")").filter(|_| is_letter(module.letter)).ok_or(21)?;
    for part in list.split(|b| *b == b',') {
        let param = module.params.get_mut(usize::from(module.count)).ok_or(21)?;
        *param = match part {
            [b'-', digits @ ..] => -number(digits).ok_or(21)?,
            digits => number(digits).ok_or(21)?,
        };
        module.count += 1;
    }
    if module.params.into_iter().all(ranged) { Ok(module) } else { Err(22) }
}

impl Source for Seed<'_> {
    #[inline(always)]
    fn draw(&mut self) -> Result<Option<Module>, Fault> {
        let place = self.told + 1;
        let fault = |cause| Fault { cause, generation: 0, place };
        if self.rest.is_empty() {
            return if self.depth == 0 { Ok(None) } else { Err(fault(25)) };
        }
        let (own, rest) = cut(self.rest);
        let module = read_module(own).map_err(fault)?;
        match module.letter {
            b']' if self.depth == 0 => return Err(fault(23)),
            b'[' if self.depth == DEEPEST => return Err(fault(24)),
            letter => self.depth = after(self.depth, letter),
        }
        self.rest = rest;
        self.told = place;
        Ok(Some(module))
    }
}

// The pruner

/// The word below without what a `%` cuts off: the rest of its branch.
struct Pruner<S> {
    below: S,
    depth: usize,
    /// Modules are dropped while at least so many brackets are open.
    floor: Option<usize>,
}

impl<S: Source> Source for Pruner<S> {
    #[inline(always)]
    fn draw(&mut self) -> Result<Option<Module>, Fault> {
        while let Some(module) = self.below.draw()? {
            let before = self.depth;
            self.depth = after(before, module.letter);
            match self.floor {
                None if module.letter == b'%' => self.floor = Some(before),
                Some(floor) if floor <= before.min(self.depth) => {}
                _ => {
                    self.floor = None;
                    return Ok(Some(module));
                }
            }
        }
        Ok(None)
    }
}

// Expressions

/// A place of postfix code. Slots are parameters: 0 to 2 of the left neighbour, 3 to 5 of the module, 6 to 8 of the right neighbour.
#[derive(Clone, Copy)]
enum Op {
    Number(i32),
    Slot(u8),
    Negate,
    /// `+`, `-`, `*` or `/`.
    Join(u8),
    /// Whether what is less, equal or more is in the relation.
    Compare([bool; 3]),
}

fn joined(sign: u8, x: i32, y: i32) -> Result<i32, u8> {
    let (x, y) = (i64::from(x), i64::from(y));
    let n = match sign {
        b'+' => x + y,
        b'-' => x - y,
        b'*' => x * y,
        _ => x.checked_div(y).ok_or(31)?,
    };
    i32::try_from(n).ok().filter(|n| ranged(*n)).ok_or(32)
}

/// Works code out up to the first comparison that is false: whether there is none. What is not compared stays on the stack.
fn run(code: &[Op], slots: &[i32; 9], stack: &mut Vec<i32>) -> Result<bool, u8> {
    fn pop(stack: &mut Vec<i32>) -> i32 {
        stack.pop().expect("code has its operands in front of it")
    }
    stack.clear();
    for op in code {
        let value = match *op {
            Op::Number(n) => n,
            Op::Slot(at) => slots[usize::from(at)],
            Op::Negate => -pop(stack),
            Op::Join(sign) => {
                let (y, x) = (pop(stack), pop(stack));
                joined(sign, x, y)?
            }
            Op::Compare(relation) => {
                let (y, x) = (pop(stack), pop(stack));
                if !relation[usize::from(x >= y) + usize::from(x > y)] {
                    return Ok(false);
                }
                continue;
            }
        };
        stack.push(value);
    }
    Ok(true)
}

// Books

/// A letter and how many parameters.
type Form = (u8, u8);

/// Whether a side agrees with the neighbour there: without a form it agrees with anything.
fn beside(form: Option<Form>, neighbour: Option<Module>) -> bool {
    form.is_none_or(|form| neighbour.is_some_and(|module| module.form() == form))
}

/// A module of a successor; the code leaves its parameters on the stack.
struct Piece {
    module: Module,
    code: Vec<Op>,
}

struct Rule {
    printed: i32,
    left: Option<Form>,
    own: Form,
    right: Option<Form>,
    guard: Vec<Op>,
    pieces: Vec<Piece>,
    /// How many places of code all of it takes.
    places: usize,
    /// How deep the brackets of the successor nest.
    depth: usize,
}

impl Rule {
    /// Both sides, left only, right only, none; then the lower printed number.
    fn rank(&self) -> (bool, bool, i32) {
        (self.left.is_none(), self.right.is_none(), self.printed)
    }
}

/// Three tables with a place for each byte.
struct Book {
    /// The rules for a letter, as they are tried.
    rules: [Vec<Rule>; 256],
    /// For which numbers of parameters one of them looks right.
    looks: [[bool; 4]; 256],
    ignored: [bool; 256],
}

impl Book {
    /// The book of some lines, or the number of the first that is refused.
    fn read(lines: &[u8]) -> Result<Book, usize> {
        let mut book = Book { rules: [const { Vec::new() }; 256], looks: [[false; 4]; 256], ignored: [false; 256] };
        for (at, line) in (3_usize..).zip(lines.split(|b| *b == b'\n')) {
            if !line.is_empty() {
                book.load(line).ok_or(at)?;
            }
        }
        book.rules.iter_mut().for_each(|rules| rules.sort_by_key(Rule::rank));
        Ok(book)
    }

    /// Takes a line, or none where it is refused.
    fn load(&mut self, line: &[u8]) -> Option<()> {
        if line.len() > 200 {
            return None;
        }
        let mut parser = Parser { rest: line, names: Vec::new(), code: Vec::new() };
        if parser.takes(b"~") {
            loop {
                self.ignored[usize::from(parser.byte(is_letter)?)] = true;
                if parser.peek().is_empty() {
                    return Some(());
                }
            }
        }
        let rule = parser.rule()?;
        let others: Vec<&Rule> = self.rules.iter().flatten().collect();
        let places: usize = others.iter().map(|other| other.places).sum();
        let known = others.iter().any(|other| other.printed == rule.printed);
        if known || others.len() == 48 || places + rule.places > 1024 {
            return None;
        }
        let (letter, count) = (usize::from(rule.own.0), usize::from(rule.own.1));
        self.looks[letter][count] |= rule.right.is_some();
        self.rules[letter].push(rule);
        Some(())
    }
}

// Generations

/// One generation of the word below.
struct Generation<'b, S> {
    below: S,
    book: &'b Book,
    number: u8,
    /// Modules read ahead, behind the one in hand.
    window: VecDeque<Module>,
    /// The left neighbour at each depth.
    lefts: [Option<Module>; DEEPEST + 1],
    depth: usize,
    /// The place of the module in hand, counted from 1, and how many modules are in the result.
    place: u32,
    produced: usize,
    /// What the module in hand grew to, and how many modules of it are told.
    growth: Vec<Module>,
    told: usize,
    stack: Vec<i32>,
}

impl<'b, S: Source> Generation<'b, S> {
    fn new(below: S, book: &'b Book, number: u8) -> Generation<'b, S> {
        Generation {
            below,
            book,
            number,
            window: VecDeque::with_capacity(AHEAD),
            lefts: [None; DEEPEST + 1],
            depth: 0,
            place: 0,
            produced: 0,
            growth: Vec::new(),
            told: 0,
            stack: Vec::new(),
        }
    }

    fn fault(&self, cause: u8) -> Fault {
        Fault { cause, generation: self.number, place: self.place }
    }

    /// Looks for the right neighbour of the module in hand, no further than needed.
    fn look(&mut self) -> Result<Option<Module>, Fault> {
        let mut depth = 0;
        for at in 0..AHEAD {
            if at == self.window.len() {
                match self.below.draw()? {
                    Some(module) => self.window.push_back(module),
                    None => return Ok(None),
                }
            }
            let module = self.window[at];
            match module.letter {
                b'[' => depth += 1,
                b']' if depth == 0 => return Ok(None),
                b']' => depth -= 1,
                letter if depth == 0 && !self.book.ignored[usize::from(letter)] => return Ok(Some(module)),
                _ => {}
            }
        }
        Err(self.fault(30))
    }

    /// Tries the rules for the letter in hand: whether it grows, and what to is the growth then.
    fn grow(&mut self, module: Module, right: Option<Module>) -> Result<bool, u8> {
        let left = self.lefts[self.depth];
        let params = |side: Option<Module>| side.map_or([0; 3], |module| module.params);
        let ([a, b, c], [d, e, f], [g, h, i]) = (params(left), module.params, params(right));
        let slots = [a, b, c, d, e, f, g, h, i];
        for rule in &self.book.rules[usize::from(module.letter)] {
            let agrees = rule.own == module.form() && beside(rule.left, left) && beside(rule.right, right);
            if !agrees || !run(&rule.guard, &slots, &mut self.stack)? {
                continue;
            }
            self.growth.clear();
            self.told = 0;
            for piece in &rule.pieces {
                let mut grown = piece.module;
                if !piece.code.is_empty() {
                    run(&piece.code, &slots, &mut self.stack)?;
                    grown.params[..self.stack.len()].copy_from_slice(&self.stack);
                }
                self.growth.push(grown);
            }
            return if self.depth + rule.depth > DEEPEST { Err(33) } else { Ok(true) };
        }
        Ok(false)
    }

    /// Takes a module in hand: whether it grows or stays as it is.
    fn turn(&mut self, module: Module) -> Result<bool, Fault> {
        self.place += 1;
        let mut grows = false;
        match module.letter {
            b'[' => {
                self.lefts[self.depth + 1] = self.lefts[self.depth];
                self.depth += 1;
            }
            b']' => self.depth -= 1,
            letter => {
                let looks = self.book.looks[usize::from(letter)][usize::from(module.count)];
                let right = if looks { self.look()? } else { None };
                grows = self.grow(module, right).map_err(|cause| self.fault(cause))?;
                if !self.book.ignored[usize::from(letter)] {
                    self.lefts[self.depth] = Some(module);
                }
            }
        }
        self.produced += if grows { self.growth.len() } else { 1 };
        if self.produced > MOST_MODULES { Err(self.fault(34)) } else { Ok(grows) }
    }
}

impl<S: Source> Source for Generation<'_, S> {
    #[inline(always)]
    fn draw(&mut self) -> Result<Option<Module>, Fault> {
        loop {
            if let Some(module) = self.growth.get(self.told) {
                self.told += 1;
                return Ok(Some(*module));
            }
            let ahead = self.window.pop_front();
            let Some(module) = ahead.map_or_else(|| self.below.draw(), |module| Ok(Some(module)))? else {
                return Ok(None);
            };
            if !self.turn(module)? {
                return Ok(Some(module));
            }
        }
    }
}

// Lines of a book; what is refused is none

/// The rank of an operator, and its code.
fn operator(token: &[u8]) -> Option<(u8, Op)> {
    match token {
        b"<" => Some((0, Op::Compare([true, false, false]))),
        b"<=" => Some((0, Op::Compare([true, true, false]))),
        b"=" => Some((0, Op::Compare([false, true, false]))),
        b"!=" => Some((0, Op::Compare([true, false, true]))),
        b">=" => Some((0, Op::Compare([false, true, true]))),
        b">" => Some((0, Op::Compare([false, false, true]))),
        [sign @ (b'+' | b'-')] => Some((1, Op::Join(*sign))),
        [sign @ (b'*' | b'/')] => Some((2, Op::Join(*sign))),
        _ => None,
    }
}

/// What is left of a line, the names of its forms with their slots, and the code not yet taken into a guard or a piece.
struct Parser<'a> {
    rest: &'a [u8],
    names: Vec<(u8, u8)>,
    code: Vec<Op>,
}

impl<'a> Parser<'a> {
    /// The next token, or nothing at the end of the line.
    fn peek(&self) -> &'a [u8] {
        let rest = &self.rest[self.rest.iter().take_while(|b| **b == b' ').count()..];
        match rest {
            [b'0'..=b'9', ..] => &rest[..rest.iter().take_while(|b| b.is_ascii_digit()).count()],
            [b'-', b'>', ..] | [b'<' | b'>' | b'!', b'=', ..] => &rest[..2],
            _ => &rest[..rest.len().min(1)],
        }
    }

    fn next(&mut self) -> &'a [u8] {
        let token = self.peek();
        let gap = self.rest.iter().take_while(|b| **b == b' ').count();
        self.rest = &self.rest[gap + token.len()..];
        token
    }

    fn takes(&mut self, sign: &[u8]) -> bool {
        let stands = self.peek() == sign;
        if stands {
            self.next();
        }
        stands
    }

    fn expect(&mut self, sign: &[u8]) -> Option<()> {
        self.takes(sign).then_some(())
    }

    fn byte(&mut self, known: fn(u8) -> bool) -> Option<u8> {
        match self.next() {
            [byte] if known(*byte) => Some(*byte),
            _ => None,
        }
    }

    /// One to three items in parentheses, if there are any: how many.
    fn list(&mut self, mut item: impl FnMut(&mut Self, u8) -> Option<()>) -> Option<u8> {
        let mut count = 0;
        if self.takes(b"(") {
            while count == 0 || self.takes(b",") {
                item(self, count)?;
                count += 1;
            }
            self.expect(b")")?;
        }
        (count <= 3).then_some(count)
    }

    /// A form, whose names stand for the slots from this one on.
    fn form(&mut self, slot: u8) -> Option<Form> {
        let letter = self.byte(is_letter)?;
        let count = self.list(|parser, at| {
            let name = parser.byte(|b| b.is_ascii_lowercase())?;
            parser.names.push((name, slot + at));
            Some(())
        })?;
        Some((letter, count))
    }

    /// An operand with a `-` in front or none, and what is joined to it by operators of this rank or a higher one.
    fn sum(&mut self, least: u8) -> Option<()> {
        let negated = self.takes(b"-");
        match self.next() {
            b"(" => {
                self.sum(1)?;
                self.expect(b")")?;
            }
            [name @ b'a'..=b'z'] => {
                let (_, slot) = self.names.iter().find(|(given, _)| given == name)?;
                self.code.push(Op::Slot(*slot));
            }
            token => self.code.push(Op::Number(number(token).filter(|n| ranged(*n))?)),
        }
        self.code.extend(negated.then_some(Op::Negate));
        while let Some((rank, op)) = operator(self.peek()).filter(|(rank, _)| *rank >= least) {
            self.next();
            self.sum(rank + 1)?;
            self.code.push(op);
        }
        Some(())
    }

    fn comparison(&mut self) -> Option<()> {
        self.sum(1)?;
        let (_, relation) = operator(self.next()).filter(|(rank, _)| *rank == 0)?;
        self.sum(1)?;
        self.code.push(relation);
        Some(())
    }

    fn piece(&mut self) -> Option<Piece> {
        let mut module = Module::bare(self.byte(|b| is_letter(b) || is_bracket(b))?);
        if is_letter(module.letter) {
            module.count = self.list(|parser, _| parser.sum(1))?;
        }
        Some(Piece { module, code: take(&mut self.code) })
    }

    fn rule(&mut self) -> Option<Rule> {
        let printed = number(self.next()).filter(|n| (1..=999).contains(n))?;
        self.expect(b":")?;
        let mut left = None;
        let mut own = self.form(3)?;
        if self.takes(b"<") {
            self.names.iter_mut().for_each(|(_, slot)| *slot -= 3);
            left = Some(own);
            own = self.form(3)?;
        }
        let right = if self.takes(b">") { Some(self.form(6)?) } else { None };
        if self.names.iter().any(|(name, _)| self.names.iter().filter(|(other, _)| name == other).count() > 1) {
            return None;
        }
        if self.takes(b"?") {
            self.comparison()?;
            while self.takes(b"&") {
                self.comparison()?;
            }
        }
        let guard = take(&mut self.code);
        self.expect(b"->")?;
        let (mut pieces, mut open, mut depth) = (Vec::new(), 0, 0);
        while !self.peek().is_empty() {
            let piece = self.piece()?;
            if piece.module.letter == b']' && open == 0 {
                return None;
            }
            open = after(open, piece.module.letter);
            depth = depth.max(open);
            pieces.push(piece);
        }
        let places = guard.len() + pieces.iter().map(|piece| piece.code.len()).sum::<usize>();
        let rule = Rule { printed, left, own, right, guard, pieces, places, depth };
        (open == 0 && rule.pieces.len() <= 24).then_some(rule)
    }
}

// The turtle

/// A place, and two directions at right angles, by number: 0 +x, 1 -x, 2 +y, 3 -y, 4 +z, 5 -z.
#[derive(Clone, Copy)]
struct Pose {
    place: [i32; 3],
    heading: u8,
    left: u8,
}

const HOME: Pose = Pose { place: [0; 3], heading: 2, left: 1 };

fn opposite(direction: u8) -> u8 {
    direction ^ 1
}

/// The cross product of two directions at right angles.
fn cross(a: u8, b: u8) -> u8 {
    let (p, q) = (a / 2, b / 2);
    // x, y, z, x is the order that leads to the positive side
    let backwards = u8::from((p + 1) % 3 != q);
    2 * (3 - p - q) + (backwards ^ (a & 1) ^ (b & 1))
}

impl Pose {
    /// A quarter turn, or a half one for `|`. Other letters do not turn.
    fn turn(&mut self, letter: u8) {
        let (heading, left) = (self.heading, self.left);
        (self.heading, self.left) = match letter {
            b'+' => (left, opposite(heading)),
            b'-' => (opposite(left), heading),
            b'&' => (opposite(cross(heading, left)), left),
            b'^' => (cross(heading, left), left),
            b'\\' => (heading, opposite(cross(heading, left))),
            b'/' => (heading, cross(heading, left)),
            b'|' => (opposite(heading), opposite(left)),
            _ => (heading, left),
        };
    }

    /// Goes ahead, or tells the limit that this would break.
    fn step(&mut self, length: i32) -> Result<(), u8> {
        if !(0..=LONGEST_STEP).contains(&length) {
            return Err(41);
        }
        let coordinate = &mut self.place[usize::from(self.heading / 2)];
        let end = if self.heading % 2 == 0 { *coordinate + length } else { *coordinate - length };
        if !(-FARTHEST..=FARTHEST).contains(&end) {
            return Err(42);
        }
        *coordinate = end;
        Ok(())
    }
}

/// Where the turtle is, the poses stored at open brackets, and what the report tells.
struct Plot {
    pose: Pose,
    stored: [Pose; DEEPEST],
    depth: usize,
    deepest: usize,
    modules: u32,
    segments: u32,
    length: u64,
    /// The box, which counts from the first segment on.
    least: [i32; 3],
    greatest: [i32; 3],
}

impl Plot {
    fn new() -> Plot {
        Plot {
            pose: HOME,
            stored: [HOME; DEEPEST],
            depth: 0,
            deepest: 0,
            modules: 0,
            segments: 0,
            length: 0,
            least: [i32::MAX; 3],
            greatest: [i32::MIN; 3],
        }
    }

    fn draw(&mut self, length: i32) -> Result<(), u8> {
        let start = self.pose.place;
        self.pose.step(length)?;
        if length > 0 {
            self.segments += 1;
            self.length += u64::from(length.unsigned_abs());
            for (axis, (from, to)) in start.into_iter().zip(self.pose.place).enumerate() {
                self.least[axis] = self.least[axis].min(from).min(to);
                self.greatest[axis] = self.greatest[axis].max(from).max(to);
            }
        }
        Ok(())
    }

    /// Takes a module, or tells the limit that it would break.
    fn take(&mut self, module: Module) -> Result<(), u8> {
        let length = if module.count == 0 { 1 } else { module.params[0] };
        match module.letter {
            b'F' => self.draw(length)?,
            b'f' => self.pose.step(length)?,
            b'[' => {
                self.stored[self.depth] = self.pose;
                self.depth += 1;
                self.deepest = self.deepest.max(self.depth);
            }
            b']' => {
                self.depth -= 1;
                self.pose = self.stored[self.depth];
            }
            letter => self.pose.turn(letter),
        }
        self.modules += 1;
        Ok(())
    }

    /// Takes the word of a source, which has so many generations, and tells how it ends.
    fn follow<S: Source>(&mut self, mut source: S, generation: u8) -> Result<(), Fault> {
        while let Some(module) = source.draw()? {
            self.take(module).map_err(|cause| Fault { cause, generation, place: self.modules + 1 })?;
        }
        Ok(())
    }

    /// The report, but for its last line.
    fn write<W: Write>(&self, out: &mut W) -> io::Result<()> {
        writeln!(out, "modules {}\nsegments {}\nlength {}", self.modules, self.segments, self.length)?;
        let ([a, c, e], [b, d, f]) = (self.least, self.greatest);
        match self.segments {
            0 => writeln!(out, "box none")?,
            _ => writeln!(out, "box {a} {b} {c} {d} {e} {f}")?,
        }
        writeln!(out, "deepest {}", self.deepest)
    }
}

// The program

#[derive(Clone, Copy)]
enum Program {
    Unroll,
    Grow,
}

/// The number of generations, the seed text and the lines of the book.
fn read_job(bytes: &[u8]) -> Option<(u8, &[u8], &[u8])> {
    let [digit @ b'0'..=b'8', b'\n', rest @ ..] = bytes else {
        return None;
    };
    let end = rest.iter().position(|b| *b == b'\n').unwrap_or(rest.len());
    let lines = rest.get(end + 1..).unwrap_or_default();
    (bytes.len() <= LONGEST_JOB).then_some((digit - b'0', &rest[..end], lines))
}

fn write_ending<W: Write>(ending: Result<(), Fault>, out: &mut W) -> io::Result<()> {
    match ending {
        Ok(()) => writeln!(out, "end clean"),
        Err(fault) => writeln!(out, "end fault {} {} {}", fault.cause, fault.generation, fault.place),
    }
}

/// Prints the word of a source, and how it ends.
fn show<S: Source, W: Write>(mut source: S, out: &mut W) -> io::Result<()> {
    let ending = loop {
        match source.draw() {
            Ok(Some(module)) => module.write(out)?,
            Ok(None) => break Ok(()),
            Err(fault) => break Err(fault),
        }
    };
    writeln!(out)?;
    write_ending(ending, out)
}

/// Prints the report of the word of a source, which has so many generations.
fn report<S: Source, W: Write>(source: S, generations: u8, out: &mut W) -> io::Result<()> {
    let mut plot = Plot::new();
    let ending = plot.follow(source, generations);
    plot.write(out)?;
    write_ending(ending, out)
}

/// Prints what a program prints of so many generations, pruned.
fn answer<S: Source, W: Write>(program: Program, below: S, generations: u8, out: &mut W) -> io::Result<()> {
    let pruner = Pruner { below, depth: 0, floor: None };
    match program {
        Program::Unroll => show(pruner, out),
        Program::Grow => report(pruner, generations, out),
    }
}

/// Layers of these numbers over a seed, the one of the first number on top.
macro_rules! layers {
    ($seed:expr, $book:expr;) => { $seed };
    ($seed:expr, $book:expr; $number:literal $($more:literal)*) => {
        Generation::new(layers!($seed, $book; $($more)*), $book, $number)
    };
}

fn main() -> io::Result<()> {
    let program = match env::args().nth(1).as_deref() {
        Some("unroll") => Program::Unroll,
        Some("grow") => Program::Grow,
        _ => {
            eprintln!("usage: vine unroll|grow < job");
            process::exit(2);
        }
    };
    let mut bytes = Vec::new();
    io::stdin().lock().take(LONGEST_JOB as u64 + 1).read_to_end(&mut bytes)?;
    let mut out = BufWriter::with_capacity(1 << 16, io::stdout().lock());
    let Some((generations, seed, lines)) = read_job(&bytes) else {
        return writeln!(out, "refused 58 line 1");
    };
    let book = match Book::read(lines) {
        Ok(book) => book,
        Err(line) => return writeln!(out, "refused 2 line {line}"),
    };
    let seed = Seed { rest: seed, told: 0, depth: 0 };
    match generations {
        0 => answer(program, layers!(seed, &book;), generations, &mut out)?,
        1 => answer(program, layers!(seed, &book; 1), generations, &mut out)?,
        2 => answer(program, layers!(seed, &book; 2 1), generations, &mut out)?,
        3 => answer(program, layers!(seed, &book; 3 2 1), generations, &mut out)?,
        4 => answer(program, layers!(seed, &book; 4 3 2 1), generations, &mut out)?,
        5 => answer(program, layers!(seed, &book; 5 4 3 2 1), generations, &mut out)?,
        6 => answer(program, layers!(seed, &book; 6 5 4 3 2 1), generations, &mut out)?,
        7 => answer(program, layers!(seed, &book; 7 6 5 4 3 2 1), generations, &mut out)?,
        _ => answer(program, layers!(seed, &book; 8 7 6 5 4 3 2 1), generations, &mut out)?,
    }
    out.flush()
}
