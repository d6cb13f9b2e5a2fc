// A plan as rows of supports, each a bit mask.

use super::fault::{Fault, Faults};
use super::limit::{limit_on, sodium_rows};
use super::pairs::Pairs;
use super::row::{Row, HALF, LOW_HALF, WIDEST};
use super::set::{decode_set, judged};
use super::{below, Declined, MAX};

/// The most labels of a plan.
const MOST_LABELS: usize = 512;

/// A decoded plan of either version.
pub enum Plan {
    One(Net<u16>),
    Two(Net<u32>),
}

impl Plan {
    pub fn workers(&self) -> usize {
        self.numbers()[0]
    }

    /// The numbers of workers, variables, constraints and labels.
    pub fn numbers(&self) -> [usize; 4] {
        match self {
            Plan::One(net) => net.numbers(),
            Plan::Two(net) => net.numbers(),
        }
    }
}

/// A decoded plan of one version. A label is `R::VALUES` * variable + value,
/// both from 0.
pub struct Net<R> {
    pub p: usize,
    pub n: usize,
    pub constraints: usize,
    pub owner: [u8; MAX],
    pub size: [u8; MAX],
    /// By variable: the variables it shares a constraint with.
    pub tied: [u32; MAX],
    /// By worker: its variables.
    pub own: [u32; 9],
    /// By label and other variable: the values that support it.
    pub rows: Vec<[R; MAX]>,
    /// Each table and each limit by itself, for the wrong variant that looks
    /// at one after the other.
    pub single: Vec<(usize, usize, [R; WIDEST])>,
}

/// The sodium figure of each label.
pub type Sodium = [u16; MAX * WIDEST];

impl<R: Row> Net<R> {
    fn new(p: usize, n: usize, constraints: usize) -> Net<R> {
        Net {
            p,
            n,
            constraints,
            owner: [0; MAX],
            size: [0; MAX],
            tied: [0; MAX],
            own: [0; 9],
            rows: vec![[R::default(); MAX]; n * R::VALUES],
            single: Vec::new(),
        }
    }

    fn numbers(&self) -> [usize; 4] {
        [self.p, self.n, self.constraints, self.labels()]
    }

    pub fn labels(&self) -> usize {
        self.size[..self.n].iter().map(|&size| usize::from(size)).sum()
    }

    pub fn size(&self, s: usize) -> usize {
        usize::from(self.size[s])
    }

    /// The values of variable `t` that support a label.
    pub fn row(&self, label: usize, t: usize) -> u32 {
        self.rows[label][t].into()
    }

    /// Takes variable `s` from its section, which has been checked.
    fn add_variable<F: Faults>(&mut self, f: F, s: usize, body: &[u8], sodium: &mut Sodium) {
        let owner = body[0];
        // Only a wrong variant accepts more.
        let size = body[1].min(R::VALUES as u8);
        self.owner[s] = owner;
        self.size[s] = size;
        self.own[usize::from(owner)] |= 1 << s;
        for d in 0..usize::from(size) {
            let read = if f.has(Fault::FiguresOfLowHalf) { d % HALF } else { d };
            sodium[R::VALUES * s + d] = word(body, 4 + 4 * read);
        }
    }

    /// Ties two variables by the rows of a constraint, which acts together
    /// with those over the same two that came before. Not inlined, since the
    /// innermost loop would then be short of registers.
    #[inline(never)]
    fn tie<F: Faults>(&mut self, f: F, a: usize, b: usize, rows: &[R; WIDEST]) {
        let known = self.tied[a] >> b & 1 == 1;
        self.tied[a] |= 1 << b;
        self.tied[b] |= 1 << a;
        let count = self.size(a);
        for d in 0..count {
            let row = &mut self.rows[R::VALUES * a + d][b];
            *row = if known { both(f, *row, rows[d]) } else { rows[d] };
        }
        for e in 0..self.size(b) {
            let mut column = R::default();
            let bit = if f.has(Fault::ColumnHalvesSwapped) { (e + HALF) % R::VALUES } else { e };
            for d in 0..count {
                column = column | (self.rows[R::VALUES * a + d][b] >> bit & R::cut(1)) << d;
            }
            if f.has(Fault::OneWay) {
                column = R::cut(below(f, self.size[a]));
            }
            self.rows[R::VALUES * b + e][a] = column;
        }
    }

    /// Ties two variables by what a constraint, or the limits on them, allow.
    fn tie_by<F: Faults>(&mut self, f: F, a: usize, b: usize, rows: &[R; WIDEST]) {
        if f.has(Fault::NothingAllowedUntied) && rows.iter().all(|&row| row.into() == 0) {
            return;
        }
        self.tie(f, a, b, rows);
        if f.has(Fault::SupportsByConstraint) {
            self.single.push((a, b, *rows));
        }
    }

    /// Ties the variables that have a limit.
    fn tie_by_limits<F: Faults>(&mut self, f: F, pairs: &Pairs, sodium: &Sodium) {
        for (a, b, limit) in pairs.limits() {
            let none_recorded =
                |s| (0..self.size(s)).all(|d| sodium[R::VALUES * s + d] == u16::MAX);
            if f.has(Fault::NoneRecordedUntied) && (none_recorded(a) || none_recorded(b)) {
                continue;
            }
            let rows = sodium_rows(f, limit, self, sodium, a, b);
            self.tie_by(f, a, b, &rows);
        }
    }

    /// Ties variables to themselves, as no sound variant does: a value with a
    /// figure supports itself, one without has no support.
    fn tie_to_themselves(&mut self, sodium: &Sodium) {
        for s in 0..self.n {
            self.tied[s] |= 1 << s;
            for d in 0..self.size(s) {
                let label = R::VALUES * s + d;
                let recorded = sodium[label] != u16::MAX;
                self.rows[label][s] = R::cut(u32::from(recorded) << d);
            }
        }
    }
}

/// The pairs that an earlier row and a later one allow together.
fn both<F: Faults, R: Row>(f: F, earlier: R, later: R) -> R {
    if f.has(Fault::EitherConstraint) {
        earlier | later
    } else if f.has(Fault::LastConstraintOnly) {
        later
    } else {
        earlier & later
    }
}

pub fn word(bytes: &[u8], at: usize) -> u16 {
    u16::from(bytes[at]) << 8 | u16::from(bytes[at + 1])
}

/// The content of the section at `start`.
fn section<F: Faults>(f: F, bytes: &[u8], start: usize) -> Result<&[u8], Declined> {
    let cut = if f.has(Fault::CutPlaceIsEnd) { bytes.len() } else { start };
    if f.has(Fault::BoundaryPlaceIsHead) && start == bytes.len() {
        return Err((1, 1));
    }
    if bytes.len() - start < 2 {
        return Err((1, cut));
    }
    let length = usize::from(word(bytes, start));
    if bytes.len() - start - 2 < length {
        return Err((1, cut));
    }
    Ok(&bytes[start + 2..start + 2 + length])
}

pub fn decode<F: Faults>(f: F, bytes: &[u8]) -> Result<Plan, Declined> {
    let Some(&version) = bytes.first() else {
        return Err((1, 0));
    };
    match version_taken(f, version) {
        u16::VERSION => Ok(Plan::One(decode_sections(f, bytes)?)),
        u32::VERSION => Ok(Plan::Two(decode_sections(f, bytes)?)),
        _ => Err((2, 0)),
    }
}

/// The version that a byte is taken for; a sound variant takes it as it is.
fn version_taken<F: Faults>(f: F, byte: u8) -> u8 {
    match byte {
        0 if f.has(Fault::VersionZero) => 1,
        2 if f.has(Fault::VersionTwoUnknown) => 0,
        3 if f.has(Fault::VersionThree) => 2,
        _ => byte,
    }
}

fn decode_sections<F: Faults, R: Row>(f: F, bytes: &[u8]) -> Result<Net<R>, Declined> {
    let (p, n, constraints) = decode_head(f, bytes)?;
    let mut net = Net::new(p, n, constraints);
    let mut sodium = [0; MAX * WIDEST];
    let mut start = 6;
    let mut labels = 0;
    for s in 0..n {
        let body = section(f, bytes, start)?;
        labels = check_variable::<F, R>(f, body, start, p, labels)?;
        if f.has(Fault::SumAtEnd) && s + 1 == n && labels > MOST_LABELS {
            return Err((4, start));
        }
        net.add_variable(f, s, body, &mut sodium);
        start += 2 + body.len();
    }
    let mut pairs = Pairs::new();
    for c in 0..constraints {
        let body = section(f, bytes, start)?;
        decode_constraint(f, body, start, &mut net, &sodium, &mut pairs)?;
        if f.has(Fault::PairsAtEnd) && c + 1 == constraints && pairs.too_many(f) {
            return Err((4, start));
        }
        start += 2 + body.len();
    }
    net.tie_by_limits(f, &pairs, &sodium);
    if f.has(Fault::UnrecordedAlwaysDeleted) {
        net.tie_to_themselves(&sodium);
    }
    if start < bytes.len() {
        return Err((8, if f.has(Fault::TailPlaceIsEnd) { bytes.len() - 1 } else { start }));
    }
    Ok(net)
}

/// The head: the numbers of workers, variables and constraints.
fn decode_head<F: Faults>(f: F, bytes: &[u8]) -> Result<(usize, usize, usize), Declined> {
    let head = section(f, bytes, 1)?;
    if f.has(Fault::HeadRangeFirst) && head.first().is_some_and(|p| !(1..=8).contains(p)) {
        return Err((4, 1));
    }
    let &[p, n, constraints] = head else {
        return Err((3, 1));
    };
    let (p, n, constraints) = (usize::from(p), usize::from(n), usize::from(constraints));
    let most = if f.has(Fault::Constraints129) { 129 } else { 128 };
    if p == 0 || p > 8 || n == 0 || n > MAX || constraints > most {
        return Err((4, 1));
    }
    Ok((p, n, constraints))
}

/// Checks a variable's section; the labels with those before it.
fn check_variable<F: Faults, R: Row>(
    f: F,
    body: &[u8],
    start: usize,
    p: usize,
    before: usize,
) -> Result<usize, Declined> {
    if body.len() < 2 {
        return Err((3, start));
    }
    let (owner, size) = (usize::from(body[0]), usize::from(body[1]));
    let expected = 2 + 4 * size;
    if f.has(Fault::LengthBeforeCount) && body.len() != expected {
        return Err((3, start));
    }
    if f.has(Fault::OwnerBeforeCount) && (owner == 0 || owner > p) {
        return Err((5, start));
    }
    if size > most_values::<F, R>(f) {
        return Err((4, start));
    }
    let summed = check_sum(f, before, size, start);
    if !f.has(Fault::SumAfterLength) {
        summed?;
    }
    if body.len() != expected {
        return Err((3, start));
    }
    summed?;
    check_content(f, body, start, p)?;
    Ok(before + size)
}

/// Checks a variable's owner and codes.
fn check_content<F: Faults>(f: F, body: &[u8], start: usize, p: usize) -> Result<(), Declined> {
    let (owner, size) = (usize::from(body[0]), usize::from(body[1]));
    if f.has(Fault::CodeBeforeOwner) && repeats(body, size) {
        return Err((6, start));
    }
    if owner == 0 && !f.has(Fault::OwnerZero) || owner > p {
        return Err((5, start));
    }
    if repeats(body, scanned(f, size)) {
        return Err((6, start));
    }
    Ok(())
}

/// The most values of a variable.
fn most_values<F: Faults, R: Row>(f: F) -> usize {
    if f.has(Fault::Values32InOne) {
        u32::VALUES
    } else if f.has(Fault::Values16InTwo) {
        u16::VALUES
    } else {
        R::VALUES + usize::from(f.has(Fault::OneValueMore))
    }
}

/// Declines a variable of that size which brings the labels above their limit.
fn check_sum<F: Faults>(f: F, before: usize, size: usize, start: usize) -> Result<(), Declined> {
    if f.has(Fault::SumUntested) || f.has(Fault::SumAtEnd) {
        return Ok(());
    }
    let labels = if f.has(Fault::SumOfEarlier) { before } else { before + size };
    let most = MOST_LABELS + usize::from(f.has(Fault::Sum513)) - usize::from(f.has(Fault::Sum511));
    if labels > most {
        return Err((4, if f.has(Fault::SumAtHead) { 1 } else { start }));
    }
    Ok(())
}

/// How many of so many codes are looked at; a sound variant looks at all.
fn scanned<F: Faults>(f: F, size: usize) -> usize {
    if f.has(Fault::CodesOfLowHalf) {
        return size.min(HALF);
    }
    size - usize::from(f.has(Fault::LastCodeUnseen) && size > 0)
}

fn repeats(body: &[u8], size: usize) -> bool {
    (1..size).any(|d| (0..d).any(|e| word(body, 2 + 4 * d) == word(body, 2 + 4 * e)))
}

/// Takes a constraint from its section. A table ties its variables at once; a
/// limit is kept, since of those on a pair only the lowest acts.
fn decode_constraint<F: Faults, R: Row>(
    f: F,
    body: &[u8],
    start: usize,
    net: &mut Net<R>,
    sodium: &Sodium,
    pairs: &mut Pairs,
) -> Result<(), Declined> {
    let (a, b) = decode_first_two(f, body, start, net)?;
    let both = 1 << a | 1 << b;
    match body[2] {
        0 => {
            let length = 3 + row_bytes::<F, R>(f) * net.size(a);
            check_length(f, body, start, length, both, pairs)?;
            let rows = table_rows(f, body, start, net, a, b)?;
            pairs.touch(f, both, start)?;
            net.tie_by(f, a, b, &rows);
        }
        1 => {
            check_length(f, body, start, 5, both, pairs)?;
            pairs.touch(f, both, start)?;
            pairs.limit(f, both, |_, _| word(body, 3));
        }
        _ => {
            let scope = decode_set(f, body, start, net.n, pairs)?;
            pairs.touch(f, scope, start)?;
            let limit = |a: usize, b: usize| {
                limit_on(f, word(body, 3), net, sodium, scope & !(1 << a | 1 << b))
            };
            pairs.limit(f, judged(f, net, scope), limit);
            if f.has(Fault::SetsCountedOut) {
                let count = scope.count_ones() as usize;
                net.constraints += count * (count - 1) / 2 - 1;
            }
        }
    }
    Ok(())
}

/// The first two variables of a constraint, once its kind is right.
fn decode_first_two<F: Faults, R: Row>(
    f: F,
    body: &[u8],
    start: usize,
    net: &Net<R>,
) -> Result<(usize, usize), Declined> {
    if body.len() < 3 {
        return Err((3, start));
    }
    let (first, second, kind) = (usize::from(body[0]), usize::from(body[1]), body[2]);
    let outside = first == 0
        || second > net.n
        || first > second
        || first == second && !f.has(Fault::SameVariable);
    if f.has(Fault::VariablesBeforeKind) && outside {
        return Err((5, start));
    }
    if kind > highest_kind::<F, R>(f) {
        return Err((7, start));
    }
    if f.has(Fault::SetLengthFirst) && kind == 2 && body.len() < 6 {
        return Err((3, start));
    }
    if outside {
        return Err((5, start));
    }
    Ok((first - 1, second - 1))
}

/// The highest kind of a constraint.
fn highest_kind<F: Faults, R: Row>(f: F) -> u8 {
    if f.has(Fault::SetInOne) {
        u32::HIGHEST_KIND
    } else if f.has(Fault::SetUnknown) {
        u16::HIGHEST_KIND
    } else {
        let three = f.has(Fault::KindThree) && R::VERSION == u32::VERSION;
        R::HIGHEST_KIND + u8::from(three)
    }
}

/// Declines a constraint over these two variables that has not this length.
fn check_length<F: Faults>(
    f: F,
    body: &[u8],
    start: usize,
    length: usize,
    both: u32,
    pairs: &Pairs,
) -> Result<(), Declined> {
    let too_many = || pairs.too_many_with(f, both);
    if f.has(Fault::PairsBeforeLength) && too_many() {
        return Err((4, start));
    }
    if body.len() != length {
        return Err((3, start));
    }
    if f.has(Fault::PairsBeforeBits) && too_many() {
        return Err((4, start));
    }
    Ok(())
}

/// Bytes of a table's row.
fn row_bytes<F: Faults, R: Row>(f: F) -> usize {
    if f.has(Fault::RowsOf2Bytes) {
        u16::BYTES
    } else if f.has(Fault::RowsOf4Bytes) {
        u32::BYTES
    } else {
        R::BYTES
    }
}

/// The row of value `d` in a table.
fn read_row<F: Faults, R: Row>(f: F, body: &[u8], d: usize) -> u32 {
    let bytes = row_bytes::<F, R>(f);
    let at = 3 + bytes * d;
    if bytes == u16::BYTES {
        return u32::from(word(body, at));
    }
    let (high, low) = (u32::from(word(body, at)), u32::from(word(body, at + 2)));
    if f.has(Fault::RowHalvesSwapped) {
        low << 16 | high
    } else if f.has(Fault::RowHighUnread) {
        low
    } else {
        high << 16 | low
    }
}

/// The rows of a table.
fn table_rows<F: Faults, R: Row>(
    f: F,
    body: &[u8],
    start: usize,
    net: &Net<R>,
    a: usize,
    b: usize,
) -> Result<[R; WIDEST], Declined> {
    let (count, full) = (net.size(a), below(f, net.size[b]));
    let mut rows = [R::default(); WIDEST];
    for (d, row) in rows.iter_mut().enumerate().take(count) {
        let read = read_row::<F, R>(f, body, d);
        let last = f.has(Fault::LastRowUnseen) && d + 1 == count;
        let tested = if f.has(Fault::HighBitsUnseen) { read & LOW_HALF } else { read };
        if tested & !full != 0 && !last {
            return Err((7, start));
        }
        *row = R::cut(read & full);
    }
    Ok(rows)
}
