// Plain Rust that does what the program `pace` does: it fills and checks the largest table, as many rounds as the first line of
// the standard input says. It shares no code with the crates.
use std::io::{self, BufRead};

const SIGNALS: usize = 1024;
const STEPS: usize = 64;
const LIMIT: i16 = 30_000;

#[derive(Clone, Copy)]
enum Type {
    Bool,
    Num,
}

#[derive(Clone, Copy)]
enum Gate {
    And,
    Or,
    Xor,
}

#[derive(Clone, Copy)]
enum Operation {
    Sum,
    Max,
    Min,
    Mean,
}

#[derive(Clone, Copy)]
enum Kind {
    Gate(Gate),
    Number(Operation),
}

#[derive(Clone, Copy)]
struct Pin {
    signal: usize,
    inverted: bool,
}

#[derive(Clone, Copy)]
enum Signal {
    Source,
    Delay { default: usize, input: usize },
    Block { kind: Kind, first: usize, count: usize },
}

struct Diagram {
    signals: Vec<Signal>,
    pins: Vec<Pin>,
    types: Vec<Type>,
}

fn type_of(s: usize) -> Type {
    if s % 2 == 0 { Type::Bool } else { Type::Num }
}

fn diagram() -> Diagram {
    let signal = |s: usize| match s {
        0..=255 => Signal::Source,
        256..=511 => Signal::Delay { default: s - 256, input: s + 512 },
        _ => {
            let turn = s / 2;
            let kind = match type_of(s) {
                Type::Bool => Kind::Gate([Gate::And, Gate::Or, Gate::Xor][turn % 3]),
                Type::Num => Kind::Number([Operation::Sum, Operation::Max, Operation::Min, Operation::Mean][turn % 4]),
            };
            Signal::Block { kind, first: (s - 512) * 8, count: 8 }
        }
    };
    let pin = |k: usize| {
        let s = k / 8 + 512;
        Pin { signal: s - 2 * (k % 8 + 1), inverted: s % 2 == 0 && k % 3 == 0 }
    };
    Diagram {
        signals: (0..SIGNALS).map(signal).collect(),
        pins: (0..4096).map(pin).collect(),
        types: (0..SIGNALS).map(type_of).collect(),
    }
}

fn sources() -> Vec<i16> {
    (0..SIGNALS * STEPS)
        .map(|e| {
            let (s, mixed) = (e % SIGNALS, e % 7919 * 7919);
            if s >= 256 {
                0
            } else if s % 2 == 0 {
                i16::from(mixed % 5 < 2)
            } else {
                (mixed % 30_001) as i16
            }
        })
        .collect()
}

fn gate(gate: Gate, pins: &[i16]) -> i16 {
    i16::from(match gate {
        Gate::And => pins.iter().all(|v| *v == 1),
        Gate::Or => pins.iter().any(|v| *v == 1),
        Gate::Xor => pins.iter().filter(|v| **v == 1).count() % 2 == 1,
    })
}

fn number(operation: Operation, pins: &[i16]) -> i16 {
    let sum = || pins.iter().map(|v| i32::from(*v)).sum::<i32>();
    match operation {
        Operation::Sum => sum().clamp(-i32::from(LIMIT), i32::from(LIMIT)) as i16,
        Operation::Max => *pins.iter().max().unwrap(),
        Operation::Min => *pins.iter().min().unwrap(),
        Operation::Mean => (sum() / pins.len() as i32) as i16,
    }
}

impl Diagram {
    fn made(&self, table: &[i16], step: usize, s: usize) -> Option<i16> {
        let start = step * SIGNALS;
        match self.signals[s] {
            Signal::Source => None,
            Signal::Delay { default, .. } if step == 0 => Some(table[default]),
            Signal::Delay { input, .. } => Some(table[start - SIGNALS + input]),
            Signal::Block { kind, first, count } => {
                let mut row = [0; 8];
                for (place, pin) in row.iter_mut().zip(&self.pins[first..first + count]) {
                    let v = table[start + pin.signal];
                    *place = if pin.inverted { 1 - v } else { v };
                }
                Some(match kind {
                    Kind::Gate(g) => gate(g, &row[..count]),
                    Kind::Number(n) => number(n, &row[..count]),
                })
            }
        }
    }

    fn fill(&self, table: &mut [i16]) {
        for step in 0..STEPS {
            for s in 0..SIGNALS {
                if let Some(v) = self.made(table, step, s) {
                    table[step * SIGNALS + s] = v;
                }
            }
        }
    }

    fn typed(&self, table: &[i16]) -> bool {
        table.chunks(SIGNALS).all(|step| {
            step.iter().zip(&self.types).all(|(v, t)| match t {
                Type::Bool => *v == 0 || *v == 1,
                Type::Num => (-LIMIT..=LIMIT).contains(v),
            })
        })
    }

    fn is_made(&self, table: &[i16]) -> bool {
        (0..STEPS).all(|step| {
            (0..SIGNALS).all(|s| self.made(table, step, s).map_or(true, |v| v == table[step * SIGNALS + s]))
        })
    }

    fn closes(&self, table: &[i16]) -> bool {
        let last = (STEPS - 1) * SIGNALS;
        self.signals.iter().enumerate().all(|(s, signal)| match signal {
            Signal::Delay { input, .. } => table[s] == table[last + input],
            _ => true,
        })
    }
}

fn main() {
    let line = io::stdin().lock().lines().next().unwrap().unwrap();
    let rounds: u16 = line.trim().parse().unwrap();
    let (diagram, table) = (diagram(), sources());
    let mut sum = 0i64;
    for _ in 0..rounds {
        let mut filled = table.clone();
        diagram.fill(&mut filled);
        let run = diagram.typed(&filled) && diagram.is_made(&filled) && diagram.closes(&filled);
        sum += i64::from(*filled.last().unwrap()) + i64::from(run);
    }
    println!("{sum}");
}
