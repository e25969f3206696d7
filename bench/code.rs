//! Both codes in plain Rust: kinds, words, signatures, corrections.

pub const SEED: u128 = 305419896;
pub const STEP: u32 = 1;

/// A code, and how its words are split.
pub trait Code {
    /// The constant.
    const A: i128;
    /// The bound of signatures.
    const N: u128;
    /// The distance of signatures.
    const DISTANCE: u128;

    /// The value part and the residue of a word.
    fn split(w: i128) -> (i128, i64) {
        (w.div_euclid(Self::A), w.rem_euclid(Self::A) as i64)
    }

    /// The residue of an answer, from those of the operands.
    fn residue(factors: &[i64], residues: [i64; 3], correction: i64, stamp: i64) -> i64 {
        let mut sum = correction as i128;
        let mut share = 1;
        for (residue, factor) in residues.iter().zip(factors) {
            sum += *factor as i128 * *residue as i128;
            share -= factor;
        }
        Self::split(sum + share as i128 * stamp as i128).1
    }

    /// The signature of an operation.
    fn signature(i: usize) -> i64 {
        ((SEED + Self::DISTANCE * i as u128) % Self::N) as i64
    }
}

/// The narrow code, whose words are split on 128 bits.
pub struct Narrow;

impl Code for Narrow {
    const A: i128 = (1 << 31) - 1;
    const N: u128 = 1 << 30;
    const DISTANCE: u128 = 214748365;
}

/// The narrow code, whose words are split on 64 bits where they have no more.
pub struct NarrowShort;

impl Code for NarrowShort {
    const A: i128 = Narrow::A;
    const N: u128 = Narrow::N;
    const DISTANCE: u128 = Narrow::DISTANCE;

    #[inline(always)]
    fn split(w: i128) -> (i128, i64) {
        match i64::try_from(w) {
            Ok(w) => {
                let a = Self::A as i64;
                (w.div_euclid(a) as i128, w.rem_euclid(a))
            }
            Err(_) => Narrow::split(w),
        }
    }

    fn residue(factors: &[i64], residues: [i64; 3], correction: i64, stamp: i64) -> i64 {
        let mut sum = correction;
        let mut share = 1;
        for (residue, factor) in residues.iter().zip(factors) {
            sum += factor * residue;
            share -= factor;
        }
        (sum + share * stamp).rem_euclid(Self::A as i64)
    }
}

#[derive(Clone, Copy, PartialEq)]
pub enum Kind {
    Input,
    Const,
    Load,
    Store,
    Out,
    Conv,
    Neg,
    Not,
    Add,
    Sub,
    Mul,
    Div,
    Mod,
    Eq,
    Lt,
    And,
    Or,
    Xor,
    Sel,
}

#[derive(Clone, Copy, PartialEq)]
pub enum Ty {
    Bool,
    Int,
    Dint,
}

pub struct Op {
    pub kind: Kind,
    pub from: Ty,
    pub ty: Ty,
    pub operands: [usize; 3],
    pub imm: i64,
}

/// How the operands' residues enter the answer's.
pub fn multipliers(kind: Kind) -> &'static [i64] {
    match kind {
        Kind::Input | Kind::Const => &[],
        Kind::Load | Kind::Store | Kind::Out | Kind::Conv => &[1],
        Kind::Neg => &[-1],
        Kind::Not => &[-2],
        Kind::Add => &[1, 1],
        Kind::Sub => &[1, -1],
        Kind::Mul => &[2, 3],
        Kind::Div => &[4, 5],
        Kind::Mod => &[6, 7],
        Kind::Eq => &[8, 9],
        Kind::Lt => &[10, 11],
        Kind::And => &[12, 13],
        Kind::Or => &[14, 15],
        Kind::Xor => &[16, 17],
        Kind::Sel => &[18, 19, 20],
    }
}

pub fn operand_type(kind: Kind, j: usize, from: Ty) -> Ty {
    match kind {
        Kind::Not | Kind::And | Kind::Or | Kind::Xor => Ty::Bool,
        Kind::Sel if j == 0 => Ty::Bool,
        _ => from,
    }
}

pub fn fits(ty: Ty, v: i128) -> bool {
    match ty {
        Ty::Bool => (0..=1).contains(&v),
        Ty::Int => (-32768..=32767).contains(&v),
        Ty::Dint => (-2147483648..=2147483647).contains(&v),
    }
}

/// The value for operands in their types, where no divisor is 0.
#[inline(always)]
pub fn value(kind: Kind, imm: i64, v: [i128; 3]) -> i128 {
    match kind {
        Kind::Input | Kind::Const => imm as i128,
        Kind::Load | Kind::Store | Kind::Out | Kind::Conv => v[0],
        Kind::Neg => -v[0],
        Kind::Not => 1 - v[0],
        Kind::Add => v[0] + v[1],
        Kind::Sub => v[0] - v[1],
        Kind::Mul => v[0] * v[1],
        Kind::Div => v[0] / v[1],
        Kind::Mod => v[0] % v[1],
        Kind::Eq => (v[0] == v[1]) as i128,
        Kind::Lt => (v[0] < v[1]) as i128,
        Kind::And => (v[0] == 1 && v[1] == 1) as i128,
        Kind::Or => (v[0] == 1 || v[1] == 1) as i128,
        Kind::Xor => (v[0] != v[1]) as i128,
        Kind::Sel => {
            if v[0] == 0 {
                v[1]
            } else {
                v[2]
            }
        }
    }
}

/// The word of an operation, or none where it stops. `read` gives the word of an operand.
#[inline(always)]
pub fn word<C: Code>(
    op: &Op,
    read: impl Fn(usize) -> i128,
    imm: i64,
    correction: i64,
    stamp: i64,
) -> Option<i128> {
    let factors = multipliers(op.kind);
    let (mut values, mut residues) = ([0; 3], [0; 3]);
    for j in 0..factors.len() {
        (values[j], residues[j]) = C::split(read(j));
        if !fits(operand_type(op.kind, j, op.from), values[j]) {
            return None;
        }
    }
    if matches!(op.kind, Kind::Div | Kind::Mod) && values[1] == 0 {
        return None;
    }
    let v = value(op.kind, imm, values);
    if !fits(op.ty, v) {
        return None;
    }
    Some(C::A * v + C::residue(factors, residues, correction, stamp) as i128)
}

pub fn op(kind: Kind, from: Ty, ty: Ty, operands: [usize; 3], imm: i64) -> Op {
    Op {
        kind,
        from,
        ty,
        operands,
        imm,
    }
}

/// The corrections of operations, where the LOAD of cell `imm` reads the STORE `stores[imm]`.
pub fn corrections<C: Code>(ops: &[Op], stores: &[usize]) -> Vec<i64> {
    let mut all = Vec::new();
    for (k, op) in ops.iter().enumerate() {
        let mut sum = C::signature(k) as i128;
        for (factor, n) in multipliers(op.kind).iter().zip(op.operands) {
            let signature = match op.kind {
                Kind::Load => C::signature(stores[op.imm as usize]) - STEP as i64,
                _ => C::signature(n),
            };
            sum -= *factor as i128 * signature as i128;
        }
        all.push(sum.rem_euclid(C::A) as i64);
    }
    all
}
