//! The check of docs/ in plain Rust, to time the library against: from the bytes of a law text with a case text
//! directly after it to the cause, 0 for accepted. Written from docs/FORMATS.md, CAUSES.md, CHECK_AND_LOOP.md and
//! MODEL.md alone.
//!
//! All sums are exact in 64 bits: docs/MODEL.md, Limits, bounds them by 4 × 10^16.

use std::ops::RangeInclusive;

const TEXT_LIMIT: usize = 60_000;

/// Why a text is refused; docs/CAUSES.md numbers the causes.
#[derive(Clone, Copy, Debug, PartialEq, Eq)]
#[repr(u32)]
enum Cause {
    Size = 1,
    Line = 2,
    Field = 3,
    Limit = 4,
    LawWord = 5,
    LowAboveHigh = 6,
    Leeway = 9,
    SizesDiffer = 11,
    NoSuchPair = 12,
    NamedBefore = 13,
    PairMissing = 14,
    Column = 15,
    RightSide = 16,
}

type Judged<T> = Result<T, Cause>;

/// The cause of the first fault of a law text with a case text after it; 0 where there is none.
pub fn verdict(text: &[u8]) -> u32 {
    match judge(text) {
        Ok(()) => 0,
        Err(cause) => cause as u32,
    }
}

fn judge(text: &[u8]) -> Judged<()> {
    let mut lines = Lines::new(text)?;
    let law = Law::read(&mut lines)?;
    let mut lines = Lines::new(lines.rest)?;
    let case = Case::read(&mut lines)?;
    check(&law, &case, &mut lines)
}

// Lines, fields and numbers.

struct Lines<'a> {
    rest: &'a [u8],
}

impl<'a> Lines<'a> {
    /// The lines of a text, if its size is good.
    fn new(text: &'a [u8]) -> Judged<Self> {
        if text.is_empty() || text.len() > TEXT_LIMIT {
            return Err(Cause::Size);
        }
        Ok(Lines { rest: text })
    }

    /// The next line, without its line feed.
    fn next(&mut self) -> Judged<&'a [u8]> {
        let end = self.rest.iter().position(|&byte| byte == b'\n').ok_or(Cause::Line)?;
        let line = &self.rest[..end];
        self.rest = &self.rest[end + 1..];
        Ok(line)
    }

    /// The next line, which must be these names.
    fn names(&mut self, due: &str) -> Judged<()> {
        if self.next()? == due.as_bytes() { Ok(()) } else { Err(Cause::Line) }
    }

    /// The numbers of the next line, one for each limit.
    fn row(&mut self, limits: &[RangeInclusive<i64>]) -> Judged<Vec<i64>> {
        let mut fields = Fields::new(self.next()?);
        let row = limits.iter().map(|limit| fields.number(limit)).collect::<Judged<Vec<_>>>()?;
        fields.end()?;
        Ok(row)
    }

    fn is_empty(&self) -> bool {
        self.rest.is_empty()
    }
}

/// The fields of a line that are still to be read; none after the last one.
struct Fields<'a> {
    rest: Option<&'a [u8]>,
}

impl<'a> Fields<'a> {
    fn new(line: &'a [u8]) -> Self {
        Fields { rest: Some(line) }
    }

    fn next(&mut self) -> Option<&'a [u8]> {
        let rest = self.rest?;
        match rest.iter().position(|&byte| byte == b' ') {
            Some(end) => {
                self.rest = Some(&rest[end + 1..]);
                Some(&rest[..end])
            }
            None => {
                self.rest = None;
                Some(rest)
            }
        }
    }

    /// The next field as a number within its limit.
    fn number(&mut self, limit: &RangeInclusive<i64>) -> Judged<i64> {
        self.number_or(limit, Cause::Limit)
    }

    /// The next field as a number within its limit, or else this cause.
    fn number_or(&mut self, limit: &RangeInclusive<i64>, outside: Cause) -> Judged<i64> {
        let field = self.next().ok_or(Cause::Field)?;
        parse(field)?.filter(|number| limit.contains(number)).ok_or(outside)
    }

    /// No field may be left.
    fn end(&self) -> Judged<()> {
        if self.rest.is_none() { Ok(()) } else { Err(Cause::Field) }
    }
}

/// The number of a field; none where it is well formed but passes 64 bits.
fn parse(field: &[u8]) -> Judged<Option<i64>> {
    let (negative, digits) = match field.strip_prefix(b"-") {
        Some(digits) => (true, digits),
        None => (false, field),
    };
    let well_formed = match digits {
        [b'0'] => !negative,
        [b'1'..=b'9', others @ ..] => others.iter().all(u8::is_ascii_digit),
        _ => false,
    };
    if !well_formed {
        return Err(Cause::Field);
    }
    let magnitude =
        digits.iter().try_fold(0i64, |number, &digit| number.checked_mul(10)?.checked_add(i64::from(digit - b'0')));
    Ok(magnitude.map(|number| if negative { -number } else { number }))
}

/// From minus to plus this magnitude.
fn within(magnitude: i64) -> RangeInclusive<i64> {
    -magnitude..=magnitude
}

// Laws.

/// Coefficients × variables ≤ right side.
struct Row {
    coefficients: Vec<i64>,
    right: i64,
}

struct Saturated {
    gains: Vec<i64>,
    offset: i64,
    divisor: i64,
    low: i64,
    high: i64,
}

enum Inputs {
    Saturated(Vec<Saturated>),
    Fixed(Vec<i64>),
}

struct Law {
    states: usize,
    inputs: usize,
    kind: Inputs,
}

impl Law {
    fn read(lines: &mut Lines) -> Judged<Law> {
        lines.names("law states inputs")?;
        let mut fields = Fields::new(lines.next()?);
        let is_saturated = match fields.next() {
            Some(b"saturated") => true,
            Some(b"fixed") => false,
            _ => return Err(Cause::LawWord),
        };
        let states = fields.number(&(1..=4))? as usize;
        let inputs = fields.number(&(1..=2))? as usize;
        fields.end()?;
        let kind = if is_saturated {
            lines.names("gains offset divisor low high")?;
            Inputs::Saturated((0..inputs).map(|_| Saturated::read(states, lines)).collect::<Judged<_>>()?)
        } else {
            lines.names("command")?;
            Inputs::Fixed((0..inputs).map(|_| Ok(lines.row(&[within(500_000)])?[0])).collect::<Judged<_>>()?)
        };
        Ok(Law { states, inputs, kind })
    }

    fn regions(&self) -> usize {
        match &self.kind {
            Inputs::Saturated(inputs) => 3usize.pow(inputs.len() as u32),
            Inputs::Fixed(_) => 1,
        }
    }

    /// The rows of a region, counted from 0, over the states and then the inputs.
    fn rows(&self, region: usize) -> Vec<Row> {
        let mut rows = Vec::new();
        match &self.kind {
            Inputs::Saturated(inputs) => {
                let mut digits = region;
                for (j, input) in inputs.iter().enumerate() {
                    input.add_rows(digits % 3, |gain, command, right| {
                        let over_states = input.gains.iter().map(|g| gain * g);
                        rows.push(self.row(over_states.collect(), j, command, right));
                    });
                    digits /= 3;
                }
            }
            Inputs::Fixed(commands) => {
                for (j, command) in commands.iter().enumerate() {
                    rows.push(self.row(vec![0; self.states], j, 1, *command));
                    rows.push(self.row(vec![0; self.states], j, -1, -command));
                }
            }
        }
        rows
    }

    /// A row over the states and one input.
    fn row(&self, over_states: Vec<i64>, input: usize, command: i64, right: i64) -> Row {
        let mut coefficients = over_states;
        coefficients.resize(self.states + self.inputs, 0);
        coefficients[self.states + input] = command;
        Row { coefficients, right }
    }
}

impl Saturated {
    fn read(states: usize, lines: &mut Lines) -> Judged<Saturated> {
        let mut limits = vec![within(10_000); states];
        limits.extend([within(100_000_000), 1..=1_000, within(500_000), within(500_000)]);
        let row = lines.row(&limits)?;
        let (gains, others) = row.split_at(states);
        let (offset, divisor, low, high) = (others[0], others[1], others[2], others[3]);
        if low > high {
            return Err(Cause::LowAboveHigh);
        }
        Ok(Saturated { gains: gains.to_vec(), offset, divisor, low, high })
    }

    /// Adds the rows of a digit (0 low, 1 middle, 2 high): the factors of the gains and of the command, and the right
    /// side.
    fn add_rows(&self, digit: usize, mut add: impl FnMut(i64, i64, i64)) {
        let Saturated { offset: k, divisor: q, low, high, .. } = *self;
        match digit {
            0 => {
                add(0, 1, low);
                add(0, -1, -low);
                add(1, 0, q * low - 1 - k);
            }
            1 => {
                add(-1, q, k);
                add(1, -q, q - 1 - k);
                add(0, 1, high);
                add(0, -1, -low);
            }
            _ => {
                add(0, 1, high);
                add(0, -1, -high);
                add(-1, 0, k - q * (high + 1));
            }
        }
    }
}

// Cases.

struct State {
    leeway: i64,
    constant: i64,
    /// The entries of A, then of B, then of E.
    dynamics: Vec<i64>,
}

struct Push {
    low: i64,
    high: i64,
}

struct Case {
    inputs: usize,
    divisor: i64,
    states: Vec<State>,
    pushes: Vec<Push>,
    /// The faces over the states: those of the box, then the extra ones.
    faces: Vec<Row>,
}

impl Case {
    fn read(lines: &mut Lines) -> Judged<Case> {
        lines.names("states inputs disturbances extra divisor")?;
        let sizes = lines.row(&[1..=4, 1..=2, 0..=2, 0..=8, 1..=1_000_000])?;
        let [states, inputs, pushes, extras] = [0, 1, 2, 3].map(|field| sizes[field] as usize);
        let divisor = sizes[4];
        let mut case = Case { inputs, divisor, states: Vec::new(), pushes: Vec::new(), faces: Vec::new() };
        lines.names("low high leeway constant")?;
        for state in 0..states {
            case.read_state(state, states, lines)?;
        }
        lines.names("push-low push-high")?;
        for _ in 0..pushes {
            case.read_push(lines)?;
        }
        lines.names("A B E")?;
        for state in &mut case.states {
            state.dynamics = lines.row(&vec![within(1_000_000); states + inputs + pushes])?;
        }
        lines.names("F f")?;
        for _ in 0..extras {
            case.read_face(states, lines)?;
        }
        lines.names("region face scale multipliers")?;
        Ok(case)
    }

    /// Reads a state line, and makes the state and both of its faces.
    fn read_state(&mut self, state: usize, states: usize, lines: &mut Lines) -> Judged<()> {
        let row = lines.row(&[within(1_000_000), within(1_000_000), 0..=1_000_000, within(100_000_000)])?;
        let (low, high, leeway, constant) = (row[0], row[1], row[2], row[3]);
        if low > high {
            return Err(Cause::LowAboveHigh);
        }
        if 2 * leeway + 1 < self.divisor {
            return Err(Cause::Leeway);
        }
        self.states.push(State { leeway, constant, dynamics: Vec::new() });
        for (coefficient, right) in [(1, high), (-1, -low)] {
            let mut coefficients = vec![0; states];
            coefficients[state] = coefficient;
            self.faces.push(Row { coefficients, right });
        }
        Ok(())
    }

    fn read_push(&mut self, lines: &mut Lines) -> Judged<()> {
        let row = lines.row(&[within(1_000_000), within(1_000_000)])?;
        let (low, high) = (row[0], row[1]);
        if low > high {
            return Err(Cause::LowAboveHigh);
        }
        self.pushes.push(Push { low, high });
        Ok(())
    }

    fn read_face(&mut self, states: usize, lines: &mut Lines) -> Judged<()> {
        let mut limits = vec![within(1_000_000); states];
        limits.push(within(1_000_000_000));
        let mut coefficients = lines.row(&limits)?;
        let right = coefficients.pop().unwrap_or(0);
        self.faces.push(Row { coefficients, right });
        Ok(())
    }

    /// The number of the first column of the next state.
    fn first_next(&self) -> usize {
        self.states.len() + self.inputs + self.pushes.len()
    }

    fn columns(&self) -> usize {
        self.first_next() + self.states.len()
    }

    /// The system of a region: its rows over states, inputs, pushes and next states.
    fn system(&self, region_rows: Vec<Row>) -> Vec<Row> {
        let mut rows = Vec::new();
        for row in self.faces.iter().chain(&region_rows) {
            rows.push(self.padded(row.coefficients.clone(), row.right));
        }
        for (j, push) in self.pushes.iter().enumerate() {
            let column = self.states.len() + self.inputs + j;
            for (coefficient, right) in [(1, push.high), (-1, -push.low)] {
                let mut row = self.padded(Vec::new(), right);
                row.coefficients[column] = coefficient;
                rows.push(row);
            }
        }
        for (i, state) in self.states.iter().enumerate() {
            for sign in [1, -1] {
                let from_now = state.dynamics.iter().map(|entry| -sign * entry).collect();
                let mut row = self.padded(from_now, sign * state.constant + state.leeway);
                row.coefficients[self.first_next() + i] = sign * self.divisor;
                rows.push(row);
            }
        }
        rows
    }

    /// A row whose later columns are 0.
    fn padded(&self, mut coefficients: Vec<i64>, right: i64) -> Row {
        coefficients.resize(self.columns(), 0);
        Row { coefficients, right }
    }
}

// Check.

/// Judges all proof lines, and that each pair of region and face has one.
fn check(law: &Law, case: &Case, lines: &mut Lines) -> Judged<()> {
    if (law.states, law.inputs) != (case.states.len(), case.inputs) {
        return Err(Cause::SizesDiffer);
    }
    let systems: Vec<Vec<Row>> = (0..law.regions()).map(|region| case.system(law.rows(region))).collect();
    let mut named = vec![vec![false; case.faces.len()]; systems.len()];
    while !lines.is_empty() {
        check_line(lines.next()?, case, &systems, &mut named)?;
    }
    if named.iter().flatten().all(|&is_named| is_named) { Ok(()) } else { Err(Cause::PairMissing) }
}

fn check_line(line: &[u8], case: &Case, systems: &[Vec<Row>], named: &mut [Vec<bool>]) -> Judged<()> {
    let mut fields = Fields::new(line);
    let region = fields.number_or(&(1..=systems.len() as i64), Cause::NoSuchPair)? as usize - 1;
    let face = fields.number_or(&(1..=case.faces.len() as i64), Cause::NoSuchPair)? as usize - 1;
    if named[region][face] {
        return Err(Cause::NamedBefore);
    }
    named[region][face] = true;
    let system = &systems[region];
    let scale = fields.number(&(0..=1_000_000))?;
    let multipliers = system.iter().map(|_| fields.number(&(0..=1_000_000))).collect::<Judged<Vec<_>>>()?;
    fields.end()?;
    check_proof(case, system, &case.faces[face], scale, &multipliers)
}

/// Farkas' equations for one face.
fn check_proof(case: &Case, system: &[Row], face: &Row, scale: i64, multipliers: &[i64]) -> Judged<()> {
    let mut sums = vec![0; case.columns()];
    let mut right = 0;
    for (row, multiplier) in system.iter().zip(multipliers) {
        for (sum, coefficient) in sums.iter_mut().zip(&row.coefficients) {
            *sum += multiplier * coefficient;
        }
        right += multiplier * row.right;
    }
    let (now, next) = sums.split_at(case.first_next());
    let is_equal = now.iter().all(|&sum| sum == 0)
        && next.iter().zip(&face.coefficients).all(|(&sum, coefficient)| sum == scale * coefficient);
    if !is_equal {
        return Err(Cause::Column);
    }
    if right > scale * face.right || (scale == 0 && right > -1) {
        return Err(Cause::RightSide);
    }
    Ok(())
}
