//! Writes to a folder what the runs are measured on: rows for `add.st` and for the level crossing, and a straight program with its
//! rows. All that looks random comes from one generator with a fixed beginning.

use std::fmt::Write;
use std::{env, fs, io, process};

const ADDED_ROWS: u32 = 1_000_000;
const CROSSING_ROWS: u32 = 100_000;
const STRAIGHT_ROWS: u32 = 1_000;
const STATEMENTS: u32 = 750;
const VARIABLES: usize = 100;

struct Draws(u32);

impl Draws {
    /// A number below `bound`.
    fn below(&mut self, bound: u32) -> u32 {
        self.0 = self.0.wrapping_mul(1103515245).wrapping_add(12345) % (1 << 31);
        (self.0 >> 16) % bound
    }
}

fn added_rows() -> String {
    let mut text = String::from("x\n");
    for i in 1..=ADDED_ROWS {
        writeln!(text, "{i}").unwrap();
    }
    text
}

/// Trains one after another, each seen before the crossing, then on it, with pauses of some cycles.
fn crossing_rows(draws: &mut Draws) -> String {
    let mut text = String::from("approach,island,gate_down\n");
    let mut rows = 0;
    while rows < CROSSING_ROWS {
        let pause = 5 + draws.below(20);
        for (record, times) in [
            ("0,0,0", pause),
            ("1,0,0", 4 + draws.below(4)),
            ("1,0,1", 1 + draws.below(6)),
            ("1,1,1", 1 + draws.below(3)),
            ("0,1,1", 1 + draws.below(6)),
            ("0,0,1", 2 + draws.below(3)),
        ] {
            for _ in 0..times.min(CROSSING_ROWS - rows) {
                writeln!(text, "{record}").unwrap();
                rows += 1;
            }
        }
    }
    text
}

fn straight_rows(draws: &mut Draws) -> String {
    let mut text = String::from("a,b\n");
    for _ in 0..STRAIGHT_ROWS {
        let (a, b) = (draws.below(2001), draws.below(2001));
        writeln!(text, "{},{}", a as i32 - 1000, b as i32 - 1000).unwrap();
    }
    text
}

/// A straight program: each statement reads variables, or an input, and sets one.
struct Straight {
    source: String,
}

impl Straight {
    fn new() -> Self {
        let names: Vec<String> = (0..VARIABLES).map(|i| format!("v{i}")).collect();
        let names = names.join(", ");
        let source = format!(
            "PROGRAM straight\nVAR_INPUT a, b : DINT; END_VAR\nVAR_OUTPUT y : DINT; END_VAR\nVAR {names} : DINT; END_VAR\n"
        );
        Straight { source }
    }

    fn statement(&mut self, form: u32, draws: &mut Draws) {
        let mut variable = || draws.below(VARIABLES as u32) as usize;
        let (p, q, r) = (variable(), variable(), variable());
        let line = match form {
            0 => format!("v{p} := (v{q} + a) MOD 1000;"),
            1 => format!("v{p} := (v{q} - b) MOD 1010;"),
            2 => format!("v{p} := (v{q} * v{r}) MOD 1020;"),
            3 => format!("v{p} := SEL(v{q} = v{r}, v{q}, a MOD 1030);"),
            _ => format!("v{p} := LIMIT(-500, v{q}, 500);"),
        };
        writeln!(self.source, "{line}").unwrap();
    }

    /// The sum of four variables as the output.
    fn finish(&mut self) {
        self.source.push_str("y := v0 + v1 + v2 + v3;\nEND_PROGRAM\n");
    }
}

fn main() -> io::Result<()> {
    let folder = env::args().nth(1).unwrap_or_else(|| process::exit(4));
    let mut draws = Draws(7);
    let mut straight = Straight::new();
    for i in 0..STATEMENTS {
        straight.statement(i % 5, &mut draws);
    }
    straight.finish();
    fs::write(format!("{folder}/add.csv"), added_rows())?;
    fs::write(format!("{folder}/crossing.csv"), crossing_rows(&mut draws))?;
    fs::write(format!("{folder}/straight.csv"), straight_rows(&mut draws))?;
    fs::write(format!("{folder}/straight.st"), straight.source)?;
    Ok(())
}
