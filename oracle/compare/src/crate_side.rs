//! The crate's side: its moves and letters from our codes and bytes, and back.
use cubesim::prelude::{Cube, Face, FaceletCube, Move, MoveVariant};
use std::cell::RefCell;

pub const LETTERS: &[u8; 7] = b"URFDLBX";

pub fn face(letter: u8) -> Face {
    match letter {
        b'U' => Face::U,
        b'R' => Face::R,
        b'F' => Face::F,
        b'D' => Face::D,
        b'L' => Face::L,
        b'B' => Face::B,
        _ => Face::X,
    }
}

pub fn letter(face: Face) -> u8 {
    match face {
        Face::U => b'U',
        Face::R => b'R',
        Face::F => b'F',
        Face::D => b'D',
        Face::L => b'L',
        Face::B => b'B',
        Face::X => b'X',
    }
}

pub fn letters(faces: &[Face]) -> Vec<u8> {
    faces.iter().map(|f| letter(*f)).collect()
}

pub fn faces(letters: &[u8]) -> Vec<Face> {
    letters.iter().map(|b| face(*b)).collect()
}

pub fn mv(code: u16) -> Move {
    let v = match code % 4 {
        1 => MoveVariant::Standard,
        2 => MoveVariant::Double,
        _ => MoveVariant::Inverse,
    };
    let w = (code / 64) as i32;
    match code / 4 % 16 {
        0 => Move::U(v),
        1 => Move::L(v),
        2 => Move::F(v),
        3 => Move::R(v),
        4 => Move::B(v),
        5 => Move::D(v),
        6 => Move::Uw(w, v),
        7 => Move::Lw(w, v),
        8 => Move::Fw(w, v),
        9 => Move::Rw(w, v),
        10 => Move::Bw(w, v),
        11 => Move::Dw(w, v),
        12 => Move::X(v),
        13 => Move::Y(v),
        _ => Move::Z(v),
    }
}

pub fn mvs(codes: &[u16]) -> Vec<Move> {
    codes.iter().map(|c| mv(*c)).collect()
}

pub fn code(m: Move) -> u16 {
    let t = m.get_variant() as u16;
    let (kind, width) = match m {
        Move::U(_) => (0, 0),
        Move::L(_) => (1, 0),
        Move::F(_) => (2, 0),
        Move::R(_) => (3, 0),
        Move::B(_) => (4, 0),
        Move::D(_) => (5, 0),
        Move::Uw(w, _) => (6, w),
        Move::Lw(w, _) => (7, w),
        Move::Fw(w, _) => (8, w),
        Move::Rw(w, _) => (9, w),
        Move::Bw(w, _) => (10, w),
        Move::Dw(w, _) => (11, w),
        Move::X(_) => (12, 0),
        Move::Y(_) => (13, 0),
        Move::Z(_) => (14, 0),
    };
    width as u16 * 64 + kind * 4 + t
}

pub fn codes(ms: &[Move]) -> Vec<u16> {
    ms.iter().map(|m| code(*m)).collect()
}

/// The ids of a crate's cube, which it only hands to a mask.
pub fn ids(cube: &FaceletCube) -> Vec<u16> {
    let seen = RefCell::new(Vec::new());
    cube.mask(&|i, f| {
        seen.borrow_mut().push(i as u16);
        f
    });
    seen.into_inner()
}
