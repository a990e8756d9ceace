//! Whether a plan has the fewest intervals that are possible.

use crate::parts::{Bound, Plan, part_weights};
use crate::profiles::{Child, Profile, Profiles};
use crate::shape::Shape;
use crate::tree::Tree;

/// The number of the plan's intervals, where they are a feasible partitioning and its
/// bounds show that none has fewer.
pub fn certified(document: &Tree, k: u32, plan: &Plan) -> Result<usize, String> {
    let weights = part_weights(document, &plan.parts)?;
    if let Some(index) = weights.iter().position(|&weight| weight > k.into()) {
        return Err(format!("heavy {index} {}", weights[index]));
    }
    for (index, &found) in weights.iter().enumerate() {
        let claimed = plan.weights[index];
        if claimed != found {
            return Err(format!("weight {index} {claimed} {found}"));
        }
    }
    supported(document, k, &plan.bounds)?;
    let (intervals, bound) = (plan.parts.len(), plan.bounds[0].least);
    if intervals > bound as usize {
        return Err(format!("count {intervals} {bound}"));
    }
    Ok(intervals)
}

/// Whether no choice over the claims of a node's children goes below the node's own.
/// Refused is the first field of the first node.
fn supported(document: &Tree, k: u32, bounds: &[Bound]) -> Result<(), String> {
    let shape = Shape::new(document);
    if bounds.len() != shape.count() {
        return Err(format!("length {} {}", bounds.len(), shape.count()));
    }
    let mut profiles = Profiles::default();
    let mut children = Vec::new();
    for node in 0..shape.count() {
        // Over a node that is too heavy itself there is no choice.
        let Some(room) = k.checked_sub(shape.weights[node]) else {
            continue;
        };
        let least = |child: usize| i64::from(bounds[child].least);
        let base = shape.children(node).map(|child| least(child) - 1).sum();
        let child = |child: usize| Child::new(k, shape.weights[child], bounds[child]);
        children.clear();
        children.extend(shape.children(node).map(child));
        let profile = profiles.build(k, room, &children);
        check_claim(node, shape.weights[node], base, profile, bounds[node])?;
    }
    Ok(())
}

fn check_claim(
    node: usize,
    weight: u32,
    base: i64,
    profile: &Profile,
    claim: Bound,
) -> Result<(), String> {
    let refuse = |field: &str, claimed: u32, found: i64| {
        Err(format!("unsupported {node} {field} {claimed} {found}"))
    };
    let least = (1 + base + i64::from(profile.base)).max(1);
    if i64::from(claim.least) > least {
        return refuse("least", claim.least, least);
    }
    for (field, claimed, more) in [("lean", claim.lean, 0), ("nearly", claim.nearly, 1)] {
        let most = i64::from(claim.least) + more;
        let cost = most - 1 - base;
        if most > 0 && cost >= i64::from(profile.base) {
            let found = weight + profile.left(cost.min(u32::MAX.into()) as u32);
            if claimed > found {
                return refuse(field, claimed, found.into());
            }
        }
    }
    Ok(())
}
