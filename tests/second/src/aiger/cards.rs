//! The old plan cards: records of a two-byte mark and four-byte numbers, low byte first, of circuits in binary order.

use super::tables::{binary_order, in_range, lengths};
use super::{literal, refuse, Circuit, Counts, Lengths, Refusal, MOST};

/// Bytes of the first record, of a latch's or an output's, and of a gate's.
const HEAD: u64 = 22;
const SHORT: u64 = 6;
const LONG: u64 = 10;

/// The circuit of a card file: by 1, 18, 2, 3, 4, 5, 15.
pub fn read(file: &[u8], lent: &Lengths) -> Result<Circuit, Refusal> {
    let length = file.len() as u64;
    if length < HEAD {
        return refuse(1, file.len());
    }
    let [m, i, l, o, a] = [2, 6, 10, 14, 18].map(|at| u64::from(number(file, at)));
    let asked = HEAD + SHORT * (l + o) + LONG * a;
    if length != asked {
        return refuse(1, length.min(asked) as usize);
    }
    let records = records(l, o, a);
    if let Some((at, _)) = records.iter().find(|(at, mark)| !file[*at..].starts_with(mark)) {
        return refuse(18, *at);
    }
    if let Some(large) = [m, i, l, o, a].iter().position(|&count| count > MOST) {
        return refuse(2, 2 + 4 * large);
    }
    if m != i + l + a {
        return refuse(3, 0);
    }
    lengths(&Counts::new([m, i, l, o, a, 0, 0]).words(), lent)?;
    let circuit = circuit(file, &records, [i, l, o, a]);
    ranges(&circuit)?;
    binary_order(&circuit)?;
    Ok(circuit)
}

/// Four bytes, low byte first.
fn number(file: &[u8], at: usize) -> u32 {
    (0..4).rev().fold(0, |high, k| high << 8 | u32::from(file[at + k]))
}

/// Where each record stands, and its mark.
fn records(l: u64, o: u64, a: u64) -> Vec<(usize, &'static [u8])> {
    let kinds: [(u64, &[u8], u64); 4] = [(1, b"PH", HEAD), (l, b"PL", SHORT), (o, b"PO", SHORT), (a, b"PA", LONG)];
    let mut records = Vec::new();
    let mut at = 0;
    for (count, mark, bytes) in kinds {
        for _ in 0..count {
            records.push((at, mark));
            at += bytes as usize;
        }
    }
    records
}

fn circuit(file: &[u8], records: &[(usize, &[u8])], [i, l, o, _]: [u64; 4]) -> Circuit {
    let mut defining = (1..).map(literal);
    let inputs: Vec<u32> = defining.by_ref().take(i as usize).collect();
    let (latches, rest) = records[1..].split_at(l as usize);
    let (outputs, gates) = rest.split_at(o as usize);
    let latches: Vec<[u32; 2]> = defining
        .by_ref()
        .zip(latches)
        .map(|(current, (at, _))| [current, number(file, at + 2)])
        .take(l as usize)
        .collect();
    let first = inputs.len() + latches.len() + 1;
    let gates = (first..).map(literal).zip(gates);
    let gates = gates.map(|(lhs, (at, _))| [lhs, number(file, at + 2), number(file, at + 6)]);
    let gates: Vec<[u32; 3]> = gates.collect();
    Circuit {
        m: i + l + gates.len() as u64,
        inputs,
        outputs: outputs.iter().map(|(at, _)| number(file, at + 2)).collect(),
        resets: vec![0; latches.len()],
        latches,
        gates,
        bads: Vec::new(),
        constraints: Vec::new(),
    }
}

/// 5, by the table.
fn ranges(circuit: &Circuit) -> Result<(), Refusal> {
    let used = |literal: u32| in_range(literal.into(), circuit.m, false);
    let good = [
        (2, circuit.latches.iter().all(|latch| used(latch[1]))),
        (3, circuit.outputs.iter().all(|&output| used(output))),
        (4, circuit.gates.iter().all(|gate| used(gate[1]) && used(gate[2]))),
    ];
    match good.iter().find(|(_, good)| !good) {
        Some((table, _)) => refuse(5, *table),
        None => Ok(()),
    }
}

/// Whether cards can hold the circuit: they have no resets, bad states and constraints.
pub fn can_hold(circuit: &Circuit) -> bool {
    circuit.resets.iter().all(|&reset| reset == 0) && circuit.bads.is_empty() && circuit.constraints.is_empty()
}

/// The card file of a circuit in binary order.
pub fn file(circuit: &Circuit) -> Vec<u8> {
    let counts = circuit.counts();
    let head = [counts.m, counts.i, counts.l, counts.o, counts.a].map(|count| count as u32);
    let mut bytes = record(b"PH", &head);
    for latch in &circuit.latches {
        bytes.extend(record(b"PL", &latch[1..]));
    }
    for &output in &circuit.outputs {
        bytes.extend(record(b"PO", &[output]));
    }
    for gate in &circuit.gates {
        bytes.extend(record(b"PA", &gate[1..]));
    }
    bytes
}

fn record(mark: &[u8], numbers: &[u32]) -> Vec<u8> {
    let mut bytes = mark.to_vec();
    for number in numbers {
        bytes.extend([0, 8, 16, 24].map(|shift| (number >> shift) as u8));
    }
    bytes
}
