//! What `vcp run P ROWS` does once P is a list of operations, in plain Rust, without a contract: it reads the rows, carries the
//! operations of each cycle in coded words, compares the residues of the outputs, and writes each line by one write, and a flush.
//!
//! The words are LIST ROWS MODE. LIST begins with the line that the run begins with, and has then a line an operation, in the
//! form of `docs/dev/FLATTENING.md`; all cells begin with 0. ROWS has the inputs in their order. MODE is `long`, which splits words on
//! `i128`, `short`, which splits them on `i64` where a word has no more than 64 bits, or `uncoded`, which carries plain values
//! alone, as `vcp plain` means them. Where a run doesn't come to its end, it says so on standard error, and the status is that of
//! `vcp`: 1 where a record is refused, 2 at a stop, 3 at a refused output.

mod code;

use code::{
    Code, Kind, Narrow, NarrowShort, Op, STEP, Ty, corrections, fits, multipliers, op,
    operand_type, value, word,
};
use std::io::{self, Write};
use std::marker::PhantomData;
use std::{env, fs, process};

struct Graph {
    head: String,
    ops: Vec<Op>,
    inputs: Vec<Ty>,
    outs: Vec<usize>,
    stores: Vec<usize>,
}

fn kind(name: &str) -> Option<Kind> {
    Some(match name {
        "INPUT" => Kind::Input,
        "CONST" => Kind::Const,
        "LOAD" => Kind::Load,
        "STORE" => Kind::Store,
        "OUT" => Kind::Out,
        "CONV" => Kind::Conv,
        "NEG" => Kind::Neg,
        "NOT" => Kind::Not,
        "ADD" => Kind::Add,
        "SUB" => Kind::Sub,
        "MUL" => Kind::Mul,
        "DIV" => Kind::Div,
        "MOD" => Kind::Mod,
        "EQ" => Kind::Eq,
        "LT" => Kind::Lt,
        "AND" => Kind::And,
        "OR" => Kind::Or,
        "XOR" => Kind::Xor,
        "SEL" => Kind::Sel,
        _ => return None,
    })
}

fn ty(name: &str) -> Option<Ty> {
    match name {
        "BOOL" => Some(Ty::Bool),
        "INT" => Some(Ty::Int),
        "DINT" => Some(Ty::Dint),
        _ => None,
    }
}

/// One operation of a list: `OP KIND FROM TY`, its operands, its own number behind a word, and its place.
fn operation(line: &str) -> Option<Op> {
    let mut words = line.split(' ').skip(1);
    let kind = kind(words.next()?)?;
    let (from, to) = (ty(words.next()?)?, ty(words.next()?)?);
    let mut read = [0; 3];
    if kind != Kind::Load {
        for operand in read.iter_mut().take(multipliers(kind).len()) {
            *operand = words.next()?.parse().ok()?;
        }
    }
    let imm = match words.next()? {
        "at" => 0,
        _ => words.next()?.parse().ok()?,
    };
    Some(op(kind, from, to, read, imm))
}

fn graph(text: &str) -> Option<Graph> {
    let mut lines = text.lines();
    let head = lines.next()?.to_owned();
    let ops: Vec<Op> = lines.map(operation).collect::<Option<_>>()?;
    let of_kind = |kind| {
        let found = ops
            .iter()
            .enumerate()
            .filter(move |(_, op)| op.kind == kind);
        found.map(|(i, _)| i).collect::<Vec<_>>()
    };
    let inputs = of_kind(Kind::Input).iter().map(|i| ops[*i].ty).collect();
    let (outs, stores) = (of_kind(Kind::Out), of_kind(Kind::Store));
    Some(Graph {
        head,
        ops,
        inputs,
        outs,
        stores,
    })
}

/// Reads the values of a record; false where one isn't of its type, or their number is another.
fn read_record(line: &str, types: &[Ty], row: &mut Vec<i64>) -> bool {
    row.clear();
    for cell in line.split(',') {
        match (cell.parse::<i64>(), types.get(row.len())) {
            (Ok(v), Some(ty)) if fits(*ty, v as i128) => row.push(v),
            _ => return false,
        }
    }
    row.len() == types.len()
}

/// One line and its write.
struct Lines<W> {
    out: W,
    line: Vec<u8>,
}

impl<W: Write> Lines<W> {
    fn row(&mut self, cycle: usize, outputs: impl Iterator<Item = i128>) -> io::Result<()> {
        self.line.clear();
        write!(self.line, "{cycle}")?;
        for v in outputs {
            write!(self.line, ",{v}")?;
        }
        self.line.push(b'\n');
        self.out.write_all(&self.line)?;
        self.out.flush()
    }

    fn text(&mut self, text: &str) -> io::Result<()> {
        writeln!(self.out, "{text}")?;
        self.out.flush()
    }
}

/// Why a run doesn't come to its end; the status is the number.
#[derive(Clone, Copy)]
enum Early {
    Record = 1,
    Stop = 2,
    Refused = 3,
}

/// Carries a cycle, to its released outputs.
trait Carries {
    fn carry(&mut self, graph: &Graph, row: &[i64], cycle: usize) -> Result<(), Early>;

    fn output(&self, out: usize) -> i128;
}

/// A machine on coded words.
struct Coded<C: Code> {
    code: PhantomData<C>,
    corrections: Vec<i64>,
    cells: Vec<i128>,
    words: Vec<i128>,
}

impl<C: Code> Coded<C> {
    fn new(graph: &Graph) -> Self {
        Coded {
            code: PhantomData,
            corrections: corrections::<C>(&graph.ops, &graph.stores),
            cells: graph
                .stores
                .iter()
                .map(|store| C::signature(*store) as i128)
                .collect(),
            words: vec![0; graph.ops.len()],
        }
    }
}

impl<C: Code> Carries for Coded<C> {
    fn carry(&mut self, graph: &Graph, row: &[i64], cycle: usize) -> Result<(), Early> {
        let stamp = (STEP as usize * (cycle + 1)) as i64;
        for (k, (op, correction)) in graph.ops.iter().zip(&self.corrections).enumerate() {
            let read = |j: usize| match op.kind {
                Kind::Load => self.cells[op.imm as usize],
                _ => self.words[op.operands[j]],
            };
            let imm = match op.kind {
                Kind::Input => row[op.imm as usize],
                _ => op.imm,
            };
            match word::<C>(op, read, imm, *correction, stamp) {
                Some(w) => self.words[k] = w,
                None => return Err(Early::Stop),
            }
        }
        for out in &graph.outs {
            if C::split(self.words[*out]).1 != C::signature(*out) + stamp {
                return Err(Early::Refused);
            }
        }
        for (cell, store) in self.cells.iter_mut().zip(&graph.stores) {
            *cell = self.words[*store];
        }
        Ok(())
    }

    fn output(&self, out: usize) -> i128 {
        C::split(self.words[out]).0
    }
}

/// A machine on plain values.
struct Uncoded {
    cells: Vec<i128>,
    values: Vec<i128>,
}

impl Carries for Uncoded {
    fn carry(&mut self, graph: &Graph, row: &[i64], _cycle: usize) -> Result<(), Early> {
        self.values.clear();
        for op in &graph.ops {
            let mut read = [0; 3];
            for (j, read) in read.iter_mut().enumerate().take(multipliers(op.kind).len()) {
                *read = match op.kind {
                    Kind::Load => self.cells[op.imm as usize],
                    _ => self.values[op.operands[j]],
                };
                if !fits(operand_type(op.kind, j, op.from), *read) {
                    return Err(Early::Stop);
                }
            }
            let imm = match op.kind {
                Kind::Input => row[op.imm as usize],
                _ => op.imm,
            };
            if matches!(op.kind, Kind::Div | Kind::Mod) && read[1] == 0 {
                return Err(Early::Stop);
            }
            let v = value(op.kind, imm, read);
            if !fits(op.ty, v) {
                return Err(Early::Stop);
            }
            self.values.push(v);
        }
        for (cell, store) in self.cells.iter_mut().zip(&graph.stores) {
            *cell = self.values[*store];
        }
        Ok(())
    }

    fn output(&self, out: usize) -> i128 {
        self.values[out]
    }
}

fn run<C: Carries>(graph: &Graph, rows: &str, mut machine: C) -> io::Result<Result<(), Early>> {
    let out = io::stdout().lock();
    let line = Vec::with_capacity(256);
    let mut lines = Lines { out, line };
    lines.text(&graph.head)?;
    let mut row = Vec::with_capacity(graph.inputs.len());
    let mut cycles = 0;
    for record in rows.lines().skip(1) {
        if !read_record(record, &graph.inputs, &mut row) {
            return Ok(Err(Early::Record));
        }
        if let Err(early) = machine.carry(graph, &row, cycles) {
            return Ok(Err(early));
        }
        lines.row(cycles, graph.outs.iter().map(|out| machine.output(*out)))?;
        cycles += 1;
    }
    lines.text(&format!("end {cycles}"))?;
    Ok(Ok(()))
}

fn main() -> io::Result<()> {
    let words: Vec<String> = env::args().skip(1).collect();
    let [list, rows, mode] = &words[..] else {
        eprintln!("usage: coded LIST ROWS long, short or uncoded");
        process::exit(4);
    };
    let graph = graph(&fs::read_to_string(list)?).unwrap_or_else(|| {
        eprintln!("{list} is no list");
        process::exit(1)
    });
    let rows = fs::read_to_string(rows)?;
    let ended = match mode.as_str() {
        "long" => run(&graph, &rows, Coded::<Narrow>::new(&graph))?,
        "short" => run(&graph, &rows, Coded::<NarrowShort>::new(&graph))?,
        _ => {
            let cells = vec![0; graph.stores.len()];
            let values = Vec::with_capacity(graph.ops.len());
            run(&graph, &rows, Uncoded { cells, values })?
        }
    };
    if let Err(early) = ended {
        eprintln!("the run was not ended");
        process::exit(early as i32);
    }
    Ok(())
}
