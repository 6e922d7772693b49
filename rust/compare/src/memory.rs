//! Where the areas of a call lie: on the heap, or against pages that must not be touched.

use crate::case::{Answer, Case};
use crate::guard::{Arena, Edge};
use crate::sides::{Lent, Side};

pub enum Memory {
    Heap,
    Guarded(Box<Arenas>),
}

/// An arena for each area, one for the values and one for the lengths.
pub struct Arenas {
    areas: [Arena; 5],
    values: Arena,
    lengths: Arena,
}

/// An answer and every octet that was lent, afterwards.
#[derive(Debug, PartialEq)]
pub struct After {
    pub answer: Answer,
    pub areas: Vec<Vec<u8>>,
    pub values: Vec<u64>,
    pub lengths: Vec<u16>,
}

impl Memory {
    pub fn guarded() -> Self {
        Memory::Guarded(Box::new(Arenas {
            areas: [(); 5].map(|()| Arena::new()),
            values: Arena::new(),
            lengths: Arena::new(),
        }))
    }

    /// Makes the call; on the heap the edge is no matter.
    pub fn run(&mut self, side: Side, case: &Case, edge: Edge) -> After {
        match self {
            Memory::Heap => on_heap(side, case),
            Memory::Guarded(arenas) => guarded(side, case, edge, arenas),
        }
    }
}

pub fn on_heap(side: Side, case: &Case) -> After {
    let (mut areas, mut values) = (case.areas.clone(), case.values.clone());
    let lent = Lent {
        areas: areas.iter_mut().map(|area| &mut area[..]).collect(),
        values: &mut values,
        lengths: &case.lengths,
        numbers: &case.numbers,
    };
    let answer = side(case.call, lent);
    After {
        answer,
        areas,
        values,
        lengths: case.lengths.clone(),
    }
}

/// Places what is lent, for writing or for reading alone.
fn place(arena: &mut Arena, octets: &[u8], edge: Edge, written: bool) {
    arena.place(octets, edge);
    if !written {
        arena.forbid_writing();
    }
}

fn guarded(side: Side, case: &Case, edge: Edge, arenas: &mut Arenas) -> After {
    let Arenas {
        areas,
        values,
        lengths,
    } = arenas;
    let octets: Vec<u8> = case.values.iter().flat_map(|v| v.to_ne_bytes()).collect();
    place(values, &octets, edge, case.call.writes_values());
    let octets: Vec<u8> = case.lengths.iter().flat_map(|l| l.to_ne_bytes()).collect();
    place(lengths, &octets, edge, false);
    let written = case.call.parameters().written;
    for (i, (arena, area)) in areas.iter_mut().zip(&case.areas).enumerate() {
        place(arena, area, edge, written == Some(i));
    }
    let areas = &mut areas[..case.areas.len()];
    let lent = Lent {
        areas: areas.iter_mut().map(Arena::area).collect(),
        values: values.numbers(),
        lengths: lengths.lengths(),
        numbers: &case.numbers,
    };
    let answer = side(case.call, lent);
    After {
        answer,
        areas: areas
            .iter_mut()
            .map(|arena| arena.area().to_vec())
            .collect(),
        values: values.numbers().to_vec(),
        lengths: lengths.lengths().to_vec(),
    }
}
