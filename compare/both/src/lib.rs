// SPDX-License-Identifier: Apache-2.0 AND BSD-3-Clause
//! mem.rs and the proved device side by side, and where it is asked for the drop-in: the same calls on each, and everything compared.

#[path = "../../../bindings/rust/src/sys.rs"]
pub mod sys;

pub mod drop_in;
pub mod pair;
pub mod proved;
pub mod rings;
