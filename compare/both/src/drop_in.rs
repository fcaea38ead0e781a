// SPDX-License-Identifier: Apache-2.0 AND BSD-3-Clause
//! The drop-in as one more device beside mem.rs: it is given mem.rs's guest memory before it is woken, and its own is looked at after.

use drop_in::guest::Guest;
use drop_in::host::answering;
use drop_in::rust::Rust;
use oracle::chains::Chain;
use oracle::host::{Answer, Question};
use oracle::trace::First;

pub struct DropIn(Rust);

impl DropIn {
    pub fn make(first: &First) -> Result<DropIn, u64> {
        let (capacity, requested) = (first.capacity_mib, first.requested_mib);
        Rust::make(capacity, requested, first.multi, first.node, first.boot).map(DropIn)
    }

    /// What the device asks for, alignment and slots, and the features that it offers.
    pub fn shape(&mut self) -> ((u64, usize), u64) {
        (self.0.requirements(), self.0.features())
    }

    pub fn place(&mut self, start: u64, size: u64, slots: &[u32]) -> Result<(), u64> {
        self.0.place(start, size, slots)
    }

    /// Activates it with a guest whose rings lie away from its memory.
    pub fn activate(&mut self, base: u64, length: usize) {
        let guest = Guest::new(base, length, base).expect("a small range");
        assert!(
            self.0.activate(guest),
            "the drop-in activates a placed device"
        );
    }

    /// Activates it with a guest whose rings lie in its memory, both beginning at `index`.
    pub fn activate_with_rings(&mut self, base: u64, length: usize, rings: [u64; 3], index: u16) {
        let [table, available, used] = rings;
        let guest = Guest::with_rings(base, length, table, available, used);
        let mut guest = guest.expect("a range below 2^64");
        guest.begin_at(index);
        assert!(
            self.0.activate(guest),
            "the drop-in activates a placed device"
        );
    }

    pub fn set_requested_size(&mut self, mib: u64) -> Result<(), u64> {
        self.0.set_requested_size(mib)
    }

    /// Gives it this guest memory.
    pub fn give(&mut self, memory: &[u8]) {
        let guest = self.0.guest();
        guest.write(guest.base, memory);
    }

    /// Its guest memory.
    pub fn memory(&mut self) -> Vec<u8> {
        let guest = self.0.guest();
        guest.read(guest.base, guest.length)
    }

    /// Wakes it for head 0; gives its element of the used ring.
    pub fn serve(&mut self) -> (u32, u32) {
        self.0.serve(0)
    }

    pub fn wake(&mut self) {
        self.0.wake()
    }

    pub fn read_config(&mut self, offset: u64, data: &mut [u8]) {
        self.0.read_config(offset, data)
    }

    /// Each row's slot and host address.
    pub fn rows(&self) -> Vec<(u32, Option<u64>)> {
        self.0.rows()
    }

    pub fn with_blocks<T>(&self, f: impl FnOnce(&[bool]) -> T) -> T {
        self.0.with_blocks(f)
    }

    /// Runs `call` with `answerer` as its host.
    pub fn answered<T>(
        &mut self,
        mut answerer: impl FnMut(Question) -> Answer + 'static,
        call: impl FnOnce(&mut DropIn) -> T,
    ) -> T {
        answering(move |question| answerer(asked(question)), || call(self))
    }
}

/// What a fresh drop-in makes of a chain, as the sample has it.
pub fn served(case: &Chain) -> String {
    let case = drop_in::chains::Chain::parse(&case.to_string());
    case.expect("as it was printed").served().to_string()
}

/// A question of the drop-in as one of mem.rs.
fn asked(question: drop_in::host::Question) -> Question {
    match question {
        drop_in::host::Question::Create { guest, size, slot } => {
            Question::Create { guest, size, slot }
        }
        drop_in::host::Question::Discard { host, size } => Question::Discard { host, size },
    }
}
