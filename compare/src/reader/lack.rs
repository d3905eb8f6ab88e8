//! Whether every element holds what is needed of it, and as often as it may.

use super::rows::{rows_of, Role, Row, PAYMENTS, RETURNS};
use super::tree::Element;
use super::{Read, Stop, LACK};

fn lack<T>(element: &Element) -> Read<T> {
    Err(Stop { number: LACK, at: element.at })
}

/// Finds the first element that lacks something, from the document on inwards.
pub fn complete(document: &Element) -> Read<()> {
    let mut bodies = document.children.iter().filter(|child| [PAYMENTS, RETURNS].contains(&child.name));
    match (document.name, bodies.next(), bodies.next()) {
        (b"Document", Some(body), None) => holds(body, rows_of(body.name).to_vec()),
        _ => lack(document),
    }
}

/// The rows are those that lead through this element, without the steps up to it.
fn holds(element: &Element, rows: Vec<Row>) -> Read<()> {
    for (step, role, _) in steps(&rows) {
        if role != Some(Role::Free) && element.children_of(step).count() != 1 {
            return lack(element);
        }
    }
    // the element itself is complete; now its children in the order of the text
    for child in &element.children {
        for (step, _, inner) in steps(&rows) {
            if super::rows::meant(step, child.name) {
                holds(child, inner)?;
            }
        }
    }
    Ok(())
}

/// The different first steps of these rows: each with its role, if a row ends there, and the rows that go on.
fn steps(rows: &[Row]) -> Vec<(&'static str, Option<Role>, Vec<Row>)> {
    let mut steps: Vec<(&'static str, Option<Role>, Vec<Row>)> = Vec::new();
    for (path, role) in rows {
        let (step, rest) = path.split_once('/').map_or((*path, None), |(step, rest)| (step, Some(rest)));
        let index = steps.iter().position(|(known, ..)| *known == step).unwrap_or_else(|| {
            steps.push((step, None, Vec::new()));
            steps.len() - 1
        });
        match rest {
            Some(rest) => steps[index].2.push((rest, *role)),
            None => steps[index].1 = Some(*role),
        }
    }
    steps
}
