//! A listing of `hydra words`, read back.

use crate::hx_code::code::Code;
use crate::hx_code::table::{Carried, Func, Induct, Region, Spot, Tables};
use crate::hx_code::validate::validate;
use crate::hx_code::word::{Array, Word};
use crate::hx_tree::token::Pos;
use crate::hx_tree::tree::{Operator, UnaryOp};
use crate::kit::{Vec as Kept, filled};

struct Listed {
    globals: u32,
    functions: Vec<Func>,
    regions: Vec<Region>,
    words: Vec<Word>,
}

/// The code of a listing, or none where that isn't one of valid code. The globals begin as 0.
pub fn code_of(text: &str) -> Option<Code> {
    let listed = read(text)?;
    let spots = spots_of(&listed)?;
    let main = listed.functions.iter().position(|f| &f.name[..] == b"main")?;
    let tables = Tables {
        spots: Kept(spots),
        functions: Kept(listed.functions),
        regions: Kept(listed.regions),
        globals: listed.globals,
        opening: filled(0, listed.globals as usize),
        main: main as u32,
        input: None,
        input_length: None,
    };
    validate(Kept(listed.words), tables)
}

fn read(text: &str) -> Option<Listed> {
    let mut listed = Listed {
        globals: 0,
        functions: vec![],
        regions: vec![],
        words: vec![],
    };
    for line in text.lines() {
        let parts: Vec<&str> = line.split_whitespace().collect();
        match parts[..] {
            [] => {}
            ["globals", count] => listed.globals = count.parse().ok()?,
            ["func", name, entry, parameters, privates] => listed.functions.push(Func {
                name: Kept(name.bytes().collect()),
                entry: entry.parse().ok()?,
                parameters: parameters.parse().ok()?,
                privates: privates.parse().ok()?,
            }),
            ["region", start, exit, ref rest @ ..] => {
                listed.regions.push(region_of(start, exit, rest)?)
            }
            [_, ref rest @ ..] => listed.words.push(word_of(rest)?),
        }
    }
    Some(listed)
}

fn region_of(start: &str, exit: &str, rest: &[&str]) -> Option<Region> {
    let copied_at = rest.iter().position(|part| *part == "copied")?;
    let induct_at = rest.iter().position(|part| *part == "induct");
    let mut carried = vec![];
    for pair in &rest[1..copied_at] {
        let (private, cell) = pair.split_once('=')?;
        carried.push(Carried {
            private: private.parse().ok()?,
            cell: cell.parse().ok()?,
        });
    }
    let mut copied = vec![];
    for private in &rest[copied_at + 1..induct_at.unwrap_or(rest.len())] {
        copied.push(private.parse().ok()?);
    }
    let induct = match induct_at {
        Some(at) => Some(Induct {
            private: rest.get(at + 1)?.parse().ok()?,
            step: rest.get(at + 2)?.parse().ok()?,
        }),
        None => None,
    };
    Some(Region {
        start: start.parse().ok()?,
        exit: exit.parse().ok()?,
        carried: Kept(carried),
        copied: Kept(copied),
        induct,
    })
}

const NOWHERE: Pos = Pos { line: 1, col: 1 };

fn word_of(parts: &[&str]) -> Option<Word> {
    let number = |at: usize| -> Option<u32> { parts.get(at)?.parse().ok() };
    let place = |at: usize| -> Option<Pos> {
        Some(Pos {
            line: number(at)?,
            col: number(at + 1)?,
        })
    };
    let array = || -> Option<Array> {
        Some(Array {
            base: number(1)?,
            length: number(2)?,
        })
    };
    Some(match *parts.first()? {
        "const" => Word::Const(parts.get(1)?.parse().ok()?),
        "priv" => Word::Priv(number(1)?),
        "setpriv" => Word::SetPriv(number(1)?),
        "glob" => Word::Glob(number(1)?),
        "setglob" => Word::SetGlob(number(1)?),
        "elem" => Word::Elem(array()?, place(3)?),
        "setelem" => Word::SetElem(array()?, place(3)?),
        "dup" => Word::Dup,
        "drop" => Word::Drop,
        "neg" => Word::Unary(UnaryOp::Negate),
        "not" => Word::Unary(UnaryOp::Not),
        "inv" => Word::Unary(UnaryOp::Invert),
        "jump" => Word::Jump(number(1)?),
        "jfalse" => Word::JumpFalse(number(1)?),
        "jtrue" => Word::JumpTrue(number(1)?),
        "call" => Word::Call(number(1)?, place(2)?),
        "ret" => Word::Ret,
        "print" => Word::Print(place(1)?),
        "emit" => Word::Emit(place(1)?),
        "enter" => Word::Enter(number(1)?, number(2)?),
        "turn" => Word::Turn,
        "leave" => Word::Leave,
        operator => Word::Binary(operator_of(operator)?, place(1).unwrap_or(NOWHERE)),
    })
}

fn operator_of(word: &str) -> Option<Operator> {
    Some(match word {
        "add" => Operator::Add,
        "sub" => Operator::Sub,
        "mul" => Operator::Mul,
        "div" => Operator::Div,
        "rem" => Operator::Rem,
        "and" => Operator::BitAnd,
        "or" => Operator::BitOr,
        "xor" => Operator::BitXor,
        "shl" => Operator::ShiftLeft,
        "shr" => Operator::ShiftRight,
        "lt" => Operator::Less,
        "le" => Operator::LessEqual,
        "gt" => Operator::Greater,
        "ge" => Operator::GreaterEqual,
        "eq" => Operator::Equal,
        "ne" => Operator::NotEqual,
        _ => return None,
    })
}

// What is told of each place: by going through each function's words from its first one on, and through those that nothing leads to
// as words of the function before them.
fn spots_of(listed: &Listed) -> Option<Vec<Spot>> {
    let mut spots: Vec<Option<Spot>> = vec![None; listed.words.len()];
    for (function, func) in listed.functions.iter().enumerate() {
        walk(listed, &mut spots, func.entry, spot(function as u32, None, 0))?;
    }
    for place in 1..spots.len() {
        if spots[place].is_none() {
            let function = spots[place - 1]?.function;
            walk(listed, &mut spots, place as u32, spot(function, None, 0))?;
        }
    }
    spots.into_iter().collect()
}

fn spot(function: u32, region: Option<u32>, height: u32) -> Spot {
    Spot {
        function,
        region,
        height,
    }
}

fn walk(listed: &Listed, spots: &mut [Option<Spot>], start: u32, begin: Spot) -> Option<()> {
    let mut ahead = vec![(start, begin)];
    while let Some((place, here)) = ahead.pop() {
        let known = spots.get_mut(place as usize)?;
        if known.is_some() {
            continue;
        }
        *known = Some(here);
        let mut goes = |to: u32, more: i64| -> Option<()> {
            let height = u32::try_from(i64::from(here.height) + more).ok()?;
            ahead.push((to, spot(here.function, here.region, height)));
            Some(())
        };
        let next = place + 1;
        match listed.words[place as usize] {
            Word::Const(_) | Word::Priv(_) | Word::Glob(_) | Word::Dup => goes(next, 1)?,
            Word::SetPriv(_) | Word::SetGlob(_) | Word::Drop | Word::Print(_) | Word::Emit(_) => {
                goes(next, -1)?
            }
            Word::Binary(_, _) => goes(next, -1)?,
            Word::Elem(_, _) | Word::Unary(_) => goes(next, 0)?,
            Word::SetElem(_, _) => goes(next, -2)?,
            Word::Jump(to) => goes(to, 0)?,
            Word::JumpFalse(to) | Word::JumpTrue(to) => {
                goes(to, -1)?;
                goes(next, -1)?;
            }
            Word::Call(function, _) => {
                let parameters = listed.functions.get(function as usize)?.parameters;
                goes(next, 1 - i64::from(parameters))?
            }
            Word::Ret | Word::Turn | Word::Leave => {}
            Word::Enter(number, to) => {
                goes(to, 0)?;
                let region = listed.regions.get(number as usize)?;
                goes(region.exit, 0)?;
                ahead.push((region.start, spot(here.function, Some(number), 0)));
            }
        }
    }
    Some(())
}
