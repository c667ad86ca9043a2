//! Which bytes of memory a plan file names.
//!
//! A load or store covers its address and the next. It is the step that
//! counts, not a run of it: one that is skipped, that stands behind an exit or
//! belongs to a sleeper whom nobody starts names its bytes all the same. So
//! this looks at the records of a file and at nothing else.

use crate::format::{records_of, MEMORY_LENGTH, OP_LOAD, OP_STORE};

/// For each byte of memory whether a step covers it.
#[derive(Clone, Debug, PartialEq, Eq)]
pub struct Named {
    bytes: Vec<bool>,
}

impl Named {
    /// The bytes that some load or store of a file covers.
    pub fn by(file: &[u8]) -> Self {
        Named::by_ops(file, &[OP_LOAD, OP_STORE])
    }

    /// The bytes that some store of a file covers.
    pub fn by_stores(file: &[u8]) -> Self {
        Named::by_ops(file, &[OP_STORE])
    }

    /// Of a file that is refused it is what its records say; an address outside
    /// of memory is none.
    fn by_ops(file: &[u8], ops: &[u8]) -> Self {
        let mut named = Named {
            bytes: vec![false; MEMORY_LENGTH],
        };
        let records = records_of(file).into_iter();
        for record in records.filter(|record| ops.contains(&record.op)) {
            let address = usize::from(record.number);
            named.cover(address);
            named.cover(address + 1);
        }
        named
    }

    fn cover(&mut self, address: usize) {
        if let Some(byte) = self.bytes.get_mut(address) {
            *byte = true;
        }
    }

    /// Whether the byte at an address is named.
    pub fn has(&self, address: usize) -> bool {
        self.bytes.get(address).is_some_and(|&named| named)
    }

    /// The addresses whose bytes nobody named, ascending.
    pub fn unnamed(&self) -> Vec<usize> {
        (0..MEMORY_LENGTH).filter(|&at| !self.bytes[at]).collect()
    }
}
