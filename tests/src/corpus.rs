//! The first inputs of the fuzz target (fuzz/boundary.c, which describes their form), made from the files
//! of the program `replay`: for each answer of each call the shortest vector that gives it.

use std::collections::BTreeMap;

use crate::vectors::{FREE_SLOT, INGRESS, RECEIVE_PORT, TABLE, WIDEN, WRITE};

/// The name of a call by its number in docs/REPLAY.md. None for the calls that other targets make: portions, the VLAN-only model, the
/// watch, why and the report.
fn name(call: u8) -> Option<&'static str> {
    let name = match call {
        1 => "receive",
        2 => "flush",
        3 => "age",
        4 => "lookup",
        5 => "spoilt",
        6 => "compact",
        7 => "expand",
        8 => "send",
        RECEIVE_PORT => "receive_port",
        INGRESS => "ingress",
        WIDEN => "widen",
        WRITE => "write",
        FREE_SLOT => "free_slot",
        _ => return None,
    };
    Some(name)
}

/// The call in the bits of the fuzz target's selector (fuzz/input.h): those from 1 to 7 have their own numbers there.
fn selector(name: &str, call: u8) -> u8 {
    let number = match name {
        "send" => 0,
        "receive_port" => 8,
        "ingress" => 9,
        "widen" => 10,
        "write" => 11,
        "free_slot" => 12,
        _ => call,
    };
    number & 7 | (number >> 3) << 5
}

/// The numbers in front of the map, frame, payload or table: settings are 32 bytes, an area's length 2.
fn numbers_length(name: &str) -> usize {
    match name {
        "receive" | "compact" | "send" => 32 + 2,
        "expand" => 32 + 8 + 4 + 4 + 2,
        "flush" => 4,
        "age" => 2,
        "lookup" => 4 + 4 + 8,
        "receive_port" => 32 + 4 + 4 + 2,
        "ingress" => 32 + 8 + 8 + 4 * 4 + 2,
        "widen" => 2,
        _ => 0,
    }
}

fn has_table(name: &str) -> bool {
    !matches!(
        name,
        "compact" | "expand" | "send" | "ingress" | "widen" | "write"
    )
}

/// The bytes of the map's length and of the map, behind the numbers.
fn map_length(name: &str, rest: &[u8]) -> usize {
    match (name, rest) {
        ("receive_port" | "ingress", [high, low, ..]) => {
            2 + usize::from(u16::from_be_bytes([*high, *low]))
        }
        _ => 0,
    }
}

fn bytes(hex: &str) -> Vec<u8> {
    let digit = |at| u8::from_str_radix(&hex[at..at + 2], 16).expect("hex digits");
    (0..hex.len()).step_by(2).map(digit).collect()
}

/// The part of a line between its blanks; empty where the line ends before it.
fn part(line: &str, at: usize) -> &str {
    line.split(' ').nth(at).unwrap_or_default()
}

/// The input for a call on a table. Its numbers are to be taken as they are where the answer says that
/// they are out of range.
fn input(name: &str, call: u8, answer: u8, body: &[u8], table: &[u8]) -> Vec<u8> {
    let (numbers, rest) = body.split_at(numbers_length(name));
    let (map, rest) = rest.split_at(map_length(name, rest));
    let as_they_are = matches!(answer, 1 | 2);
    let mut input = vec![selector(name, call) | u8::from(as_they_are) << 4];
    input.extend(numbers);
    input.extend(map);
    if has_table(name) {
        input.extend((table.len() as u16).to_be_bytes());
        input.extend(table);
    }
    input.extend(rest);
    input
}

/// Names and bytes of the files, from crates/replay/stdin and stdout.
pub fn files(stdin: &str, stdout: &str) -> BTreeMap<String, Vec<u8>> {
    let mut files: BTreeMap<String, Vec<u8>> = BTreeMap::new();
    let mut results = stdout.lines();
    let mut table = Vec::new();
    for line in stdin.lines() {
        let (call, body) = (bytes(part(line, 0))[0], bytes(part(line, 2)));
        if call == TABLE {
            table = body;
            continue;
        }
        let result = results.next().expect("a line of stdout for each call");
        let answer = bytes(part(result, 0))[7];
        if let Some(name) = name(call) {
            let input = input(name, call, answer, &body, &table);
            let file = format!("{name}-{answer:02}");
            let kept = files.entry(file).or_insert_with(|| input.clone());
            if input.len() < kept.len() {
                *kept = input;
            }
        }
        table = bytes(part(result, 1));
    }
    files
}
