//! Expressions with no addresses, and what each call does to them.
//!
//! A register is a vector of terms, and a term is a symbol or a pair of parentheses around terms.
//! Sharing in a store lets a few hundred cells denote more terms than any memory holds, so equal
//! terms stand once in a [`Pool`] and are written by name: equal names are equal terms. A name says
//! nothing of where a cell lies.
//!
//! A text is read by descent: an expression is terms, a term may be a bracket, and in it is an expression. That
//! it has too many terms is seen from the places where they begin, and what it takes is counted over the
//! expression once it is read.

use std::collections::HashMap;

/// The name of a term in its pool.
pub type Name = u32;

/// The terms of a register or of a pair of parentheses, in order.
pub type Expression = Vec<Name>;

/// A term.
#[derive(Clone, Debug, PartialEq, Eq, Hash)]
pub enum Term {
    /// A symbol and its code.
    Symbol(u32),
    /// Parentheses around an expression.
    Parens(Expression),
}

/// All terms met so far, each once.
#[derive(Clone, Debug, Default)]
pub struct Pool {
    terms: Vec<Term>,
    names: HashMap<Term, Name>,
}

impl Pool {
    /// The name of `term`, which is the same whenever the term is the same.
    pub fn name(&mut self, term: Term) -> Name {
        let next = self.terms.len() as Name;
        *self.names.entry(term).or_insert_with_key(|term| {
            self.terms.push(term.clone());
            next
        })
    }

    /// The term of a name that this pool gave.
    pub fn term(&self, name: Name) -> &Term {
        &self.terms[name as usize]
    }

    /// What the sixteen registers of a sound store denote.
    ///
    /// Contents of a heap cell lie below it, so one pass upward meets them first.
    pub fn denoted(&mut self, words: &[u32], top: usize) -> Vec<Expression> {
        let mut names: Vec<Name> = vec![0; 16];
        for c in 16..top {
            let term = match words[2 * c + 1] {
                0 => Term::Symbol(words[2 * c]),
                _ => Term::Parens(Self::contents(&names, words, c)),
            };
            let name = self.name(term);
            names.push(name);
        }
        (0..16).map(|register| Self::contents(&names, words, register)).collect()
    }

    /// How long the text of each term is, and how many brackets are inside one another in it, in the
    /// order of names. What a term holds was named before it, so one pass upward meets that first.
    fn extents(&self) -> Vec<Extent> {
        let mut extents: Vec<Extent> = Vec::new();
        for term in &self.terms {
            extents.push(match term {
                Term::Symbol(code) => Extent { length: code.to_string().len(), height: 0 },
                Term::Parens(inside) => Extent {
                    length: length(&extents, inside).saturating_add(2),
                    height: 1 + height(&extents, inside),
                },
            });
        }
        extents
    }

    /// Writes an expression of few terms.
    fn write(&self, expression: &[Name], text: &mut String) {
        for (i, &name) in expression.iter().enumerate() {
            if i > 0 {
                text.push(' ');
            }
            match self.term(name) {
                Term::Symbol(code) => *text += &code.to_string(),
                Term::Parens(inside) => {
                    text.push('(');
                    self.write(inside, text);
                    text.push(')');
                }
            }
        }
    }

    /// The expression of which this is the text.
    ///
    /// # Errors
    ///
    /// 13, 21, 23 or 24, and the offset at which the text is refused.
    pub fn read(&mut self, text: &[u8]) -> Result<Expression, (u32, usize)> {
        let read = self.read_any(text);
        let (status, at) = read.as_ref().err().copied().unwrap_or((0, text.len()));
        match begun(text).nth(65_536) {
            // What is refused before it decides, and so does 21 at it.
            Some(place) if place < at || place == at && status == 13 => Err((24, place)),
            _ => read,
        }
    }

    /// What a text comes to: the number of terms on all levels, and the most on one.
    ///
    /// # Errors
    ///
    /// As for [`read`](Pool::read).
    pub fn counted(&mut self, text: &[u8]) -> Result<(usize, usize), (u32, usize)> {
        let expression = self.read(text)?;
        Ok((self.all_terms(&expression), self.widest(&expression)))
    }

    /// The expression of which this is the text, however many terms it has.
    fn read_any(&mut self, text: &[u8]) -> Result<Expression, (u32, usize)> {
        let mut reader = Reader { pool: self, text, at: 0 };
        let expression = reader.expression(64)?;
        match reader.next() {
            None => Ok(expression),
            // A closing bracket of none, or a byte that can neither part two terms nor go on with one.
            Some(_) => Err((23, reader.at)),
        }
    }

    /// The number of terms of an expression on all levels.
    pub fn all_terms(&self, expression: &[Name]) -> usize {
        let inside = |&name: &Name| match self.term(name) {
            Term::Symbol(_) => 0,
            Term::Parens(inside) => self.all_terms(inside),
        };
        expression.len() + expression.iter().map(inside).sum::<usize>()
    }

    /// The most terms that an expression, or one in it, has at its own level.
    pub fn widest(&self, expression: &[Name]) -> usize {
        let inside = |&name: &Name| match self.term(name) {
            Term::Symbol(_) => 0,
            Term::Parens(inside) => self.widest(inside),
        };
        expression.iter().map(inside).max().unwrap_or(0).max(expression.len())
    }

    /// Where in an expression's text the first bracket opens with which more than `most` are open.
    fn first_deeper(&self, extents: &[Extent], expression: &[Name], most: usize) -> Option<usize> {
        let i = expression.iter().position(|&name| extents[name as usize].height > most)?;
        // The terms before it, each with the space behind it.
        let place = expression[..i].iter().fold(0usize, |place, &name| {
            place.saturating_add(extents[name as usize].length).saturating_add(1)
        });
        match (self.term(expression[i]), most) {
            (Term::Parens(inside), 1..) => {
                let within = self.first_deeper(extents, inside, most - 1)?;
                Some(place.saturating_add(1).saturating_add(within))
            }
            _ => Some(place),
        }
    }

    /// The names between the ends of the bracket at `c`.
    fn contents(names: &[Name], words: &[u32], c: usize) -> Expression {
        let (left, right) = (words[2 * c] as usize, (words[2 * c + 1] & 0x0fff_ffff) as usize);
        if right == 0 {
            return Expression::new();
        }
        names[left..=right].to_vec()
    }
}

/// Where terms begin in a text, as far as it is in order: at each opening bracket, and at each digit that follows
/// none.
fn begun(text: &[u8]) -> impl Iterator<Item = usize> + '_ {
    let digit = |at: usize| text[at].is_ascii_digit();
    let begins =
        move |&at: &usize| text[at] == b'(' || digit(at) && !at.checked_sub(1).is_some_and(digit);
    (0..text.len()).filter(begins)
}

/// A text that is read by descent, and the offset of its next byte. What is read is a prefix of some text,
/// so that a refusal at the next byte is the first that there is.
struct Reader<'a> {
    pool: &'a mut Pool,
    text: &'a [u8],
    at: usize,
}

impl Reader<'_> {
    /// The next byte, if there is one.
    fn next(&self) -> Option<u8> {
        self.text.get(self.at).copied()
    }

    /// Terms with one space between each two, or none. `more` brackets may be opened inside one another.
    fn expression(&mut self, more: usize) -> Result<Expression, (u32, usize)> {
        let mut terms = Expression::new();
        if matches!(self.next(), None | Some(b')')) {
            return Ok(terms);
        }
        loop {
            terms.push(self.term(more)?);
            if self.next() != Some(b' ') {
                return Ok(terms);
            }
            self.at += 1;
        }
    }

    /// A code or a bracket.
    fn term(&mut self, more: usize) -> Result<Name, (u32, usize)> {
        match self.next() {
            Some(b'(') if more == 0 => Err((21, self.at)),
            Some(b'(') => {
                self.at += 1;
                let inside = self.expression(more - 1)?;
                if self.next() != Some(b')') {
                    return Err((23, self.at));
                }
                self.at += 1;
                Ok(self.pool.name(Term::Parens(inside)))
            }
            // 0 is no code, and no code begins with it.
            Some(b'0') => Err((13, self.at)),
            Some(b'1'..=b'9') => self.code(),
            _ => Err((23, self.at)),
        }
    }

    /// All the digits that follow, as far as they are a code.
    fn code(&mut self) -> Result<Name, (u32, usize)> {
        let rest = &self.text[self.at..];
        let count = rest.iter().take_while(|byte| byte.is_ascii_digit()).count();
        let code = |digits: usize| -> Option<u32> {
            let digits = std::str::from_utf8(&rest[..digits]).expect("digits are ASCII");
            digits.parse().ok().filter(|&code| code < 268_435_456)
        };
        // A code grows with each digit, so the first that is too large has all the smaller ones before it.
        match (1..=count).find(|&digits| code(digits).is_none()) {
            Some(digits) => Err((13, self.at + digits - 1)),
            None => {
                let code = code(count).expect("no shorter part of it is too large");
                self.at += count;
                Ok(self.pool.name(Term::Symbol(code)))
            }
        }
    }
}

/// How far the text of a term goes, to the right and inward. Lengths end at the largest number.
#[derive(Clone, Copy, Debug)]
struct Extent {
    length: usize,
    height: usize,
}

/// The length of an expression's text: that of its terms, and a space between each two.
fn length(extents: &[Extent], expression: &[Name]) -> usize {
    let spaces = expression.len().saturating_sub(1);
    expression.iter().fold(spaces, |sum, &name| sum.saturating_add(extents[name as usize].length))
}

/// The most brackets inside one another in an expression.
fn height(extents: &[Extent], expression: &[Name]) -> usize {
    expression.iter().map(|&name| extents[name as usize].height).max().unwrap_or(0)
}

/// How many cells of a store are reached before a call or a text that sets register d.
#[derive(Clone, Copy, Debug)]
pub struct Live {
    /// Those that any register reaches.
    pub all: usize,
    /// Those that another register than d reaches.
    pub others: usize,
}

/// Sixteen registers of expressions.
#[derive(Clone, Debug)]
pub struct Trees {
    /// The terms that the registers name.
    pub pool: Pool,
    /// The registers.
    pub registers: Vec<Expression>,
}

impl Trees {
    /// The expressions of a sound store.
    pub fn denoted_by(words: &[u32], top: usize) -> Trees {
        let mut pool = Pool::default();
        let registers = pool.denoted(words, top);
        Trees { pool, registers }
    }

    /// One call: its status and value. `live` is what is reached before it.
    ///
    /// Room depends on the call, `live` and `capacity` alone. A store that still has room below its capacity
    /// is not collected, yet it would not be refused if it were, as 16 + live is at most `top`.
    pub fn step(&mut self, call: [u32; 4], live: Live, capacity: usize) -> (u32, u32) {
        match self.effect(call, live, capacity) {
            Ok(Effect::Becomes(d, expression)) => {
                self.registers[d as usize] = expression;
                (0, 0)
            }
            Ok(Effect::Tells(value)) => (0, value as u32),
            Err(status) => (status, 0),
        }
    }

    /// A register as text in a space of `n` bytes, or the number that refuses it.
    ///
    /// No byte is judged here. The place of the first bracket that is one too many and the length of
    /// the text are reckoned from those of the terms, and the lesser decides.
    ///
    /// # Errors
    ///
    /// 20, 21 or 22.
    pub fn printed(&self, register: usize, n: usize) -> Result<String, u32> {
        let expression = self.registers.get(register).ok_or(20u32)?;
        let extents = self.pool.extents();
        match self.pool.first_deeper(&extents, expression, 64) {
            Some(place) if place <= n => return Err(21),
            _ if length(&extents, expression) > n => return Err(22),
            _ => {}
        }
        let mut text = String::new();
        self.pool.write(expression, &mut text);
        Ok(text)
    }

    /// A text typed into a register: its status and value. `live` is what is reached before it.
    pub fn type_in(
        &mut self,
        register: usize,
        text: &[u8],
        live: Live,
        capacity: usize,
    ) -> (u32, usize) {
        if register >= self.registers.len() {
            return (20, 0);
        }
        match self.pool.read(text) {
            Err(refused) => refused,
            // No text of no terms is refused: 16 + live is at most the capacity.
            Ok(typed) if 16 + live.others + self.pool.all_terms(&typed) > capacity => (16, 0),
            Ok(typed) => {
                self.registers[register] = typed;
                (0, 0)
            }
        }
    }

    /// What a call does, or the number that refuses it.
    fn effect(&mut self, call: [u32; 4], live: Live, capacity: usize) -> Result<Effect, u32> {
        well_formed(call)?;
        let [operation, d, a, b] = call;
        // What d alone holds goes when d is set, but not before the call has read it.
        let room = |need: usize, read: &[u32]| {
            let counted = if read.contains(&d) { live.all } else { live.others };
            if 16 + counted + need > capacity {
                Err(16u32)
            } else {
                Ok(())
            }
        };
        let of = |register: u32| self.registers[register as usize].clone();
        Ok(match operation {
            0 => Effect::Becomes(d, Expression::new()),
            1 => Effect::Becomes(d, of(a)),
            2 => {
                room(1, &[])?;
                Effect::Becomes(d, vec![self.pool.name(Term::Symbol(a))])
            }
            3 => {
                room(1, &[a])?;
                let inside = of(a);
                Effect::Becomes(d, vec![self.pool.name(Term::Parens(inside))])
            }
            4 => {
                let (before, after) = (of(a), of(b));
                if !before.is_empty() && !after.is_empty() {
                    room(before.len() + after.len(), &[a, b])?;
                }
                Effect::Becomes(d, [before, after].concat())
            }
            8 => Effect::Tells(of(a).len()),
            10 | 11 => Effect::Tells(live.all),
            _ => return self.effect_on_first(operation, d, &of(a)),
        })
    }

    /// What HEAD, REST, OPEN and FIRST do with the expression `whole`.
    fn effect_on_first(&self, operation: u32, d: u32, whole: &[Name]) -> Result<Effect, u32> {
        let (first, rest) = whole.split_first().ok_or(14u32)?;
        match (operation, self.pool.term(*first)) {
            (5, _) => Ok(Effect::Becomes(d, vec![*first])),
            (6, _) => Ok(Effect::Becomes(d, rest.to_vec())),
            (7, Term::Parens(inside)) => Ok(Effect::Becomes(d, inside.clone())),
            (9, Term::Symbol(code)) => Ok(Effect::Tells(*code as usize)),
            _ => Err(15),
        }
    }
}

/// What a done call does.
enum Effect {
    /// A register becomes an expression.
    Becomes(u32, Expression),
    /// No register changes, and a value is told.
    Tells(usize),
}

/// Refusals 10 to 13, in their order.
fn well_formed([operation, d, a, b]: [u32; 4]) -> Result<(), u32> {
    let (registers, unused): (&[u32], &[u32]) = match operation {
        0 => (&[d], &[a, b]),
        2 => (&[d], &[b]),
        1 | 3 | 5 | 6 | 7 => (&[d, a], &[b]),
        4 => (&[d, a, b], &[]),
        8 | 9 => (&[a], &[d, b]),
        10 | 11 => (&[], &[d, a, b]),
        _ => return Err(10),
    };
    if registers.iter().any(|&word| word >= 16) {
        return Err(11);
    }
    if unused.iter().any(|&word| word != 0) {
        return Err(12);
    }
    if operation == 2 && (a == 0 || a >= 268_435_456) {
        return Err(13);
    }
    Ok(())
}
