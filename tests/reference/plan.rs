// The plan as bytes: every check in the document's order, and the relations
// between variables (slots) that follow from the constraints (rules).

use std::collections::BTreeSet;

use super::scope::MOST_PAIRS;
use super::version::{Version, MOST_LABELS};
use super::{decline, Decline};

/// The sodium figure that stands for "not recorded".
pub const NOT_RECORDED: u16 = 65_535;

#[derive(Clone, Debug, PartialEq, Eq)]
pub struct Value {
    pub code: u16,
    pub sodium: u16,
}

#[derive(Clone, Debug, PartialEq, Eq)]
pub struct Variable {
    pub owner: usize,
    pub values: Vec<Value>,
}

#[derive(Clone, Debug, PartialEq, Eq)]
pub enum Relation {
    /// One row for each value of the first variable, lowest bit for the
    /// second variable's first value.
    Table(Vec<u32>),
    /// The limit of a sodium rule, which allows two recorded figures whose
    /// sum is at most that.
    Sodium(u16),
    /// The limit of a set rule, which acts as a sodium rule on every two of
    /// its variables; and those beside the first and the second, ascending.
    Set { limit: u16, further: Vec<usize> },
}

/// Variables are numbered from 1, as in the document.
#[derive(Clone, Debug, PartialEq, Eq)]
pub struct Constraint {
    pub first: usize,
    pub second: usize,
    pub relation: Relation,
}

#[derive(Clone, Debug, PartialEq, Eq)]
pub struct Plan {
    pub version: Version,
    pub workers: usize,
    pub variables: Vec<Variable>,
    pub constraints: Vec<Constraint>,
}

fn word(bytes: &[u8], at: usize) -> u16 {
    u16::from_be_bytes([bytes[at], bytes[at + 1]])
}

/// A table's row from its bytes.
fn row(bytes: &[u8]) -> u32 {
    bytes.iter().fold(0, |row, &byte| row << 8 | u32::from(byte))
}

/// The content of the section that starts at `start`, or decline 1.
fn section(bytes: &[u8], start: usize) -> Result<&[u8], Decline> {
    if bytes.len() < start + 2 {
        return decline(1, start);
    }
    let end = start + 2 + usize::from(word(bytes, start));
    if bytes.len() < end {
        return decline(1, start);
    }
    Ok(&bytes[start + 2..end])
}

/// `labels` are those of the variables before this one.
fn decode_variable(
    content: &[u8],
    start: usize,
    version: Version,
    workers: usize,
    labels: usize,
) -> Result<Variable, Decline> {
    if content.len() < 2 {
        return decline(3, start);
    }
    let owner = usize::from(content[0]);
    let count = usize::from(content[1]);
    if count > version.values {
        return decline(4, start);
    }
    if labels + count > MOST_LABELS {
        return decline(4, start);
    }
    if content.len() != 2 + 4 * count {
        return decline(3, start);
    }
    if owner < 1 || owner > workers {
        return decline(5, start);
    }
    let mut values: Vec<Value> = Vec::new();
    for index in 0..count {
        let code = word(content, 2 + 4 * index);
        let sodium = word(content, 4 + 4 * index);
        if values.iter().any(|earlier| earlier.code == code) {
            return decline(6, start);
        }
        values.push(Value { code, sodium });
    }
    Ok(Variable { owner, values })
}

fn decode_constraint(
    content: &[u8],
    start: usize,
    version: Version,
    variables: &[Variable],
) -> Result<Constraint, Decline> {
    if content.len() < 3 {
        return decline(3, start);
    }
    let first = usize::from(content[0]);
    let second = usize::from(content[1]);
    let kind = content[2];
    if kind > version.highest_kind {
        return decline(7, start);
    }
    let in_range = 1..=variables.len();
    if !in_range.contains(&first) || !in_range.contains(&second) || first >= second {
        return decline(5, start);
    }
    let relation = match kind {
        0 => decode_table(content, start, version, &variables[first - 1], &variables[second - 1])?,
        1 => decode_limit(content, start)?,
        _ => decode_set(content, start, second, variables.len())?,
    };
    Ok(Constraint { first, second, relation })
}

fn decode_limit(content: &[u8], start: usize) -> Result<Relation, Decline> {
    if content.len() != 5 {
        return decline(3, start);
    }
    Ok(Relation::Sodium(word(content, 3)))
}

/// `second` is its second variable, and the plan has so many variables.
fn decode_set(
    content: &[u8],
    start: usize,
    second: usize,
    variables: usize,
) -> Result<Relation, Decline> {
    if content.len() < 6 {
        return decline(3, start);
    }
    let limit = word(content, 3);
    let count = usize::from(content[5]);
    if count > 6 {
        return decline(4, start);
    }
    if content.len() != 6 + count {
        return decline(3, start);
    }
    let further: Vec<usize> = content[6..].iter().map(|&byte| usize::from(byte)).collect();
    let mut before = second;
    for &variable in &further {
        if !(1..=variables).contains(&variable) || variable <= before {
            return decline(5, start);
        }
        before = variable;
    }
    Ok(Relation::Set { limit, further })
}

fn decode_table(
    content: &[u8],
    start: usize,
    version: Version,
    first: &Variable,
    second: &Variable,
) -> Result<Relation, Decline> {
    if content.len() != 3 + version.row_bytes * first.values.len() {
        return decline(3, start);
    }
    let rows: Vec<u32> = content[3..].chunks(version.row_bytes).map(row).collect();
    for row in &rows {
        for bit in second.values.len()..version.values {
            if row >> bit & 1 == 1 {
                return decline(7, start);
            }
        }
    }
    Ok(Relation::Table(rows))
}

/// The numbers of workers, variables and constraints.
fn decode_head(content: &[u8], start: usize) -> Result<[usize; 3], Decline> {
    if content.len() != 3 {
        return decline(3, start);
    }
    let [workers, variables, constraints] = [0, 1, 2].map(|at| usize::from(content[at]));
    if !(1..=8).contains(&workers) || !(1..=32).contains(&variables) || constraints > 128 {
        return decline(4, start);
    }
    Ok([workers, variables, constraints])
}

/// Decodes a plan or gives the first decline, 1 to 8.
pub fn decode(bytes: &[u8]) -> Result<Plan, Decline> {
    if bytes.is_empty() {
        return decline(1, 0);
    }
    let Some(version) = Version::of_byte(bytes[0]) else {
        return decline(2, 0);
    };
    let mut start = 1;

    let content = section(bytes, start)?;
    let [workers, variable_count, constraint_count] = decode_head(content, start)?;
    start += 2 + content.len();

    let mut variables = Vec::new();
    let mut labels = 0;
    for _ in 0..variable_count {
        let content = section(bytes, start)?;
        let variable = decode_variable(content, start, version, workers, labels)?;
        labels += variable.values.len();
        variables.push(variable);
        start += 2 + content.len();
    }

    let mut constraints = Vec::new();
    let mut touched = BTreeSet::new();
    for _ in 0..constraint_count {
        let content = section(bytes, start)?;
        let constraint = decode_constraint(content, start, version, &variables)?;
        touched.extend(constraint.pairs());
        if touched.len() > MOST_PAIRS {
            return decline(4, start);
        }
        constraints.push(constraint);
        start += 2 + content.len();
    }

    if start < bytes.len() {
        return decline(8, start);
    }
    Ok(Plan { version, workers, variables, constraints })
}

impl Constraint {
    /// Whether this constraint allows value `a` of one of its variables with
    /// value `b` of another that comes after it.
    fn allows(&self, plan: &Plan, (one, a): (usize, usize), (other, b): (usize, usize)) -> bool {
        match &self.relation {
            Relation::Table(rows) => rows[a] >> b & 1 == 1,
            Relation::Sodium(limit) | Relation::Set { limit, .. } => {
                let one = plan.variables[one - 1].values[a].sodium;
                let other = plan.variables[other - 1].values[b].sodium;
                one != NOT_RECORDED
                    && other != NOT_RECORDED
                    && u32::from(one) + u32::from(other) <= u32::from(*limit)
            }
        }
    }
}

impl Plan {
    /// How many values each variable has.
    pub fn counts(&self) -> impl Iterator<Item = usize> + '_ {
        self.variables.iter().map(|variable| variable.values.len())
    }

    /// L, the number of loaded labels.
    pub fn labels(&self) -> usize {
        self.counts().sum()
    }

    /// How many list cells the lists take.
    pub fn list_cells(&self) -> usize {
        self.variables.len() * self.version.cells
    }

    /// The bound on the turns that change something.
    pub fn bound(&self) -> usize {
        let (p, l) = (self.workers, self.labels());
        5 * p * l + 2 * l + 3 * p + 1
    }

    /// The plan as bytes again.
    pub fn encode(&self) -> Vec<u8> {
        let counts = [self.workers, self.variables.len(), self.constraints.len()];
        let mut bytes = vec![self.version.byte];
        push_section(&mut bytes, &counts.map(|count| count as u8));
        for variable in &self.variables {
            push_section(&mut bytes, &variable.encode());
        }
        for constraint in &self.constraints {
            push_section(&mut bytes, &constraint.encode(self.version));
        }
        bytes
    }
}

fn push_section(bytes: &mut Vec<u8>, content: &[u8]) {
    bytes.extend_from_slice(&(content.len() as u16).to_be_bytes());
    bytes.extend_from_slice(content);
}

impl Variable {
    /// The content of its section.
    fn encode(&self) -> Vec<u8> {
        let mut content = vec![self.owner as u8, self.values.len() as u8];
        for value in &self.values {
            content.extend_from_slice(&value.code.to_be_bytes());
            content.extend_from_slice(&value.sodium.to_be_bytes());
        }
        content
    }
}

impl Constraint {
    /// The content of its section.
    pub fn encode(&self, version: Version) -> Vec<u8> {
        let mut content = vec![self.first as u8, self.second as u8, self.kind()];
        match &self.relation {
            Relation::Table(rows) => {
                for row in rows {
                    let bytes = row.to_be_bytes();
                    content.extend_from_slice(&bytes[bytes.len() - version.row_bytes..]);
                }
            }
            Relation::Sodium(limit) => content.extend_from_slice(&limit.to_be_bytes()),
            Relation::Set { limit, further } => {
                content.extend_from_slice(&limit.to_be_bytes());
                content.push(further.len() as u8);
                content.extend(further.iter().map(|&variable| variable as u8));
            }
        }
        content
    }

    pub fn kind(&self) -> u8 {
        match self.relation {
            Relation::Table(_) => 0,
            Relation::Sodium(_) => 1,
            Relation::Set { .. } => 2,
        }
    }
}

/// The relation between each two variables that share a constraint: a pair is
/// allowed when each constraint over the two allows it, read from either.
#[derive(Clone, Debug)]
pub struct Network {
    /// By variable and other variable (from 0): the allowed pairs by value
    /// and other value, or nothing when no constraint ties the two.
    pairs: Vec<Vec<Option<Vec<Vec<bool>>>>>,
}

impl Network {
    pub fn new(plan: &Plan) -> Network {
        let n = plan.variables.len();
        let mut pairs = vec![vec![None; n]; n];
        for first in 1..=n {
            for second in first + 1..=n {
                let constraints: Vec<&Constraint> = plan
                    .constraints
                    .iter()
                    .filter(|constraint| constraint.is_over(first) && constraint.is_over(second))
                    .collect();
                if constraints.is_empty() {
                    continue;
                }
                let rows = plan.variables[first - 1].values.len();
                let columns = plan.variables[second - 1].values.len();
                let mut forward = vec![vec![false; columns]; rows];
                let mut backward = vec![vec![false; rows]; columns];
                for a in 0..rows {
                    for b in 0..columns {
                        let allowed =
                            constraints.iter().all(|one| one.allows(plan, (first, a), (second, b)));
                        forward[a][b] = allowed;
                        backward[b][a] = allowed;
                    }
                }
                pairs[first - 1][second - 1] = Some(forward);
                pairs[second - 1][first - 1] = Some(backward);
            }
        }
        Network { pairs }
    }

    /// Whether two variables (from 1) share a constraint.
    pub fn tied(&self, one: usize, other: usize) -> bool {
        self.pairs[one - 1][other - 1].is_some()
    }

    /// Whether the pair of two labels is allowed; false without a constraint.
    pub fn allowed(&self, one: usize, a: usize, other: usize, b: usize) -> bool {
        match &self.pairs[one - 1][other - 1] {
            Some(rows) => rows[a][b],
            None => false,
        }
    }
}
