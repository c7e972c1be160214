//! Cases of vectors and matrices. The answers are the stand-ins', which follow document 01's order of operations; the checks are written here.

use super::*;
use crate::standins::cgmath::InnerSpace;
use crate::standins::cgmath64::{Matrix2, Matrix3, Vector2, Vector3};
use crate::standins::events;

fn vector(list: &[f64]) -> Vector3 { Vector3::new(list[0], list[1], list[2]) }
fn list(v: Vector3) -> Vec<f64> { vec![v.x, v.y, v.z] }
/// Row by row.
fn matrix2(m: &[f64]) -> Matrix2 { Matrix2::new(m[0], m[2], m[1], m[3]) }
/// Column by column.
fn matrix3(m: &[f64]) -> Matrix3 { Matrix3::from_cols(vector(&m[..3]), vector(&m[3..6]), vector(&m[6..])) }

/// An operation on lists of fixed lengths: vectors of 2 or 3, matrices of 4 or 9, a float as a list of one.
fn operation(name: &str, lengths: &'static [usize], work: fn(&[Vec<f64>]) -> Option<Vec<f64>>) -> Operation {
    Operation {
        name: name.to_string(),
        given: "lists",
        answer: "list",
        stored: 0,
        fixed: Vec::new(),
        random: Box::new(move |random| {
            let flavour = random.flavour();
            let mut lists: Vec<Vec<f64>> = lengths.iter().map(|length| random.list(flavour, *length)).collect();
            let k = random.below(lists.len());
            match random.below(24) {
                0 | 1 => {
                    let at = random.below(lengths[k]);
                    lists[k][at] = random.not_finite();
                }
                2 if lengths[k] > 1 => {
                    lists[k].pop();
                }
                3 if lengths[k] > 1 => lists[k].push(0.0),
                4 => lists[k].iter_mut().for_each(|x| *x = -0.0),
                // Equal columns.
                5 if lengths[k] == 9 => lists[k].copy_within(..3, 3),
                _ => {}
            }
            lists.into_iter().map(Floats).collect()
        }),
        rust: Box::new(move |items| {
            let mut reader = Reader::new(items);
            let lists: Vec<Vec<f64>> = lengths.iter().map(|_| reader.floats()).collect();
            let miscounted = lists.iter().zip(lengths).any(|(list, length)| list.len() != *length);
            let refusal = first(&[(2, miscounted), (5, lists.iter().any(|list| !finite(list)))]);
            if refusal != 0 {
                return Answer::refused(refusal);
            }
            events::clear();
            settled_list(work(&lists), single)
        }),
    }
}

pub(super) fn vectors() -> Vec<Operation> {
    vec![
        operation("vector_sum", &[3, 3], |l| Some(list(vector(&l[0]) + vector(&l[1])))),
        operation("vector_difference", &[3, 3], |l| Some(list(vector(&l[0]) - vector(&l[1])))),
        operation("vector_multiple", &[3, 1], |l| Some(list(vector(&l[0]) * l[1][0]))),
        operation("vector_quotient", &[3, 1], |l| Some(list(vector(&l[0]) / l[1][0]))),
        operation("vector_cross", &[3, 3], |l| Some(list(vector(&l[0]).cross(vector(&l[1]))))),
        operation("vector_dot", &[3, 3], |l| Some(vec![vector(&l[0]).dot(vector(&l[1]))])),
        operation("vector_magnitude", &[3], |l| Some(vec![vector(&l[0]).magnitude()])),
        operation("matrix2_determinant", &[4], |l| Some(vec![matrix2(&l[0]).determinant()])),
        operation("matrix2_inverse", &[4], |l| matrix2(&l[0]).invert().map(|m| vec![m.x.x, m.y.x, m.x.y, m.y.y])),
        operation("matrix2_image", &[4, 2], |l| {
            let v = matrix2(&l[0]) * Vector2::new(l[1][0], l[1][1]);
            Some(vec![v.x, v.y])
        }),
        operation("matrix3_determinant", &[9], |l| Some(vec![matrix3(&l[0]).determinant()])),
        operation("matrix3_inverse", &[9], |l| matrix3(&l[0]).invert().map(|m| [list(m.x), list(m.y), list(m.z)].concat())),
        operation("matrix3_image", &[9, 3], |l| Some(list(matrix3(&l[0]) * vector(&l[1])))),
    ]
}
