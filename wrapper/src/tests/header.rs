//! The names and numbers of the header are those of this package.

use super::*;
use std::fmt::Debug;

const HEADER: &str = include_str!("../../../include/tinshrew.h");

/// The number that a macro of the header stands for.
fn defined(name: &str) -> usize {
    let define = HEADER.lines().find_map(|line| line.strip_prefix("#define ")?.strip_prefix(name));
    define.expect("the header has the macro").trim().parse().expect("it stands for a number")
}

/// Names and numbers of the header's enum whose first constant has this name.
fn constants(first: &str) -> Vec<(String, usize)> {
    let enums = HEADER.split("enum {").skip(1).map(|rest| rest.split('}').next().unwrap_or(rest));
    let body = enums.map(str::trim).find(|body| body.starts_with(first)).expect("the header has the enum");
    let constant = |line: &str| {
        let (name, value) = line.trim().split_once(" = ")?;
        let end = value.find(|c: char| !c.is_ascii_digit()).unwrap_or(value.len());
        Some((name.to_string(), value[..end].parse().ok()?))
    };
    body.lines().map(|line| constant(line).expect("each line has a constant")).collect()
}

/// The header's name for a variant: `BadTurn { turn: 0 }` is TINSHREW_BAD_TURN.
fn constant_name(variant: impl Debug) -> String {
    let mut name = String::from("TINSHREW");
    for letter in format!("{variant:?}").chars().take_while(|c| c.is_ascii_alphabetic()) {
        if letter.is_ascii_uppercase() {
            name.push('_');
        }
        name.push(letter.to_ascii_uppercase());
    }
    name
}

#[test]
fn declines() {
    let known = (0..1_000).map(|number| Decline::new(number, 0)).filter(|d| !matches!(d, Decline::Unknown { .. }));
    let named: Vec<_> = known.map(|decline| (constant_name(decline), decline.number())).collect();
    assert_eq!(named, constants("TINSHREW_TRUNCATED"));
}

#[test]
fn statuses() {
    let known = (0..1_000).map(|number| (Status::new(number), number));
    let known = known.filter(|(status, _)| !matches!(status, Status::Unknown(_)));
    let named: Vec<_> = known.map(|(status, number)| (constant_name(status), number)).collect();
    assert_eq!(named, constants("TINSHREW_OPEN"));
}

#[test]
fn buffers() {
    let named = [Buffer::Work, Buffer::Lists].map(|buffer| (constant_name(buffer), buffer as usize));
    assert_eq!(named.to_vec(), constants("TINSHREW_WORK"));
}

#[test]
fn version_of_the_library() {
    assert_eq!(VERSION, defined("TINSHREW_VERSION"));
    assert_eq!(version(), VERSION);
}

#[test]
fn sizes() {
    assert_eq!(cells(Buffer::Work), WORK_CELLS);
    assert_eq!(cells(Buffer::Lists), LIST_CELLS);
    assert_eq!(TURN_BYTES, defined("TINSHREW_TURN_BYTES"));
    assert_eq!(WORK_CELLS, defined("TINSHREW_WORK_CELLS"));
    assert_eq!(LIST_CELLS, defined("TINSHREW_LIST_CELLS"));
    assert_eq!(library::CheckOut::default().len(), defined("TINSHREW_CHECK_OUT"));
    assert_eq!(library::RunOut::default().len(), defined("TINSHREW_RUN_OUT"));
    assert_eq!(library::SweepsOut::default().len(), defined("TINSHREW_SWEEPS_OUT"));
    assert_eq!(library::LastSweepOut::default().len(), defined("TINSHREW_LAST_SWEEP_OUT"));
}
