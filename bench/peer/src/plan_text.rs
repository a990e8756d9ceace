//! The lines of a plan: read and written.

use crate::fields::{field, number_of, path_of, write_path};
use crate::parts::{Bound, Interval, Plan};
use std::io::{self, Write};

/// The plan that the lines say. Refused is the first line that is none of a plan's, or
/// stands out of order.
pub fn read_plan(text: &[u8]) -> Result<Plan, String> {
    let mut plan = Plan::default();
    let lines = text.split_inclusive(|&byte| byte == b'\n');
    for (number, line) in (1..).zip(lines) {
        let line = line.strip_suffix(b"\n").unwrap_or(line);
        let line = line.strip_suffix(b"\r").unwrap_or(line);
        read_line(line, &mut plan).ok_or_else(|| format!("plan-line {number}"))?;
    }
    Ok(plan)
}

fn read_line(line: &[u8], plan: &mut Plan) -> Option<()> {
    let (word, rest) = field(line)?;
    match word {
        b"root" if plan.bounds.is_empty() => {
            plan.weights.push(number_of(rest)?.into());
            plan.parts.push(Interval::Root);
        }
        b"run" if plan.bounds.is_empty() => {
            let (parent, [first, last, weight]) = field_and_numbers(rest)?;
            let parent = path_of(parent)?;
            plan.weights.push(weight.into());
            plan.parts.push(Interval::Run {
                parent,
                first,
                last,
            });
        }
        b"bound" => {
            let (node, [least, lean, nearly]) = field_and_numbers(rest)?;
            if number_of(node)? as usize != plan.bounds.len() {
                return None;
            }
            plan.bounds.push(Bound {
                least,
                lean,
                nearly,
            });
        }
        _ => return None,
    }
    Some(())
}

fn field_and_numbers(rest: &[u8]) -> Option<(&[u8], [u32; 3])> {
    let (text, rest) = field(rest)?;
    let (first, rest) = field(rest)?;
    let (second, third) = field(rest)?;
    Some((
        text,
        [number_of(first)?, number_of(second)?, number_of(third)?],
    ))
}

pub fn write_plan(plan: &Plan, out: &mut impl Write) -> io::Result<()> {
    for (interval, weight) in plan.parts.iter().zip(&plan.weights) {
        match interval {
            Interval::Root => writeln!(out, "root {weight}")?,
            Interval::Run {
                parent,
                first,
                last,
            } => {
                out.write_all(b"run ")?;
                write_path(parent, out)?;
                writeln!(out, " {first} {last} {weight}")?;
            }
        }
    }
    for (node, bound) in plan.bounds.iter().enumerate() {
        let Bound {
            least,
            lean,
            nearly,
        } = bound;
        writeln!(out, "bound {node} {least} {lean} {nearly}")?;
    }
    Ok(())
}
