//! What the published modules name but `validate` never reaches.

use crate::marker::MarkerTable;
use crate::tape::Tape;

/// Selects a table that is empty here.
#[derive(Clone, Copy)]
pub enum Version {
    V3_1,
    V3_2,
}

/// The published document, as far as vref.rs reads it.
pub struct Document<'src> {
    pub(crate) source: &'src str,
    pub(crate) table: &'static MarkerTable,
    pub(crate) tape: Tape,
}

impl<'src> Document<'src> {
    pub fn source(&self) -> &'src str {
        self.source
    }

    pub fn tape(&self) -> &Tape {
        &self.tape
    }

    pub(crate) fn implicit_chapter(&self) -> u16 {
        unreachable!("vref output isn't compared")
    }
}

/// The two functions of the memchr crate that span.rs names.
pub(crate) mod memchr {
    pub(crate) fn memchr_iter(needle: u8, hay: &[u8]) -> impl Iterator<Item = usize> {
        let places = hay.iter().enumerate();
        places.filter_map(move |(at, &byte)| (byte == needle).then_some(at))
    }

    pub(crate) fn memrchr(needle: u8, hay: &[u8]) -> Option<usize> {
        hay.iter().rposition(|&byte| byte == needle)
    }
}
