// SPDX-License-Identifier: Apache-2.0 AND BSD-3-Clause
//! Stand-in for log: every message is put together; the last one of debug! is kept, the others dropped.

use std::cell::RefCell;
use std::fmt;

thread_local! {
    static LAST: RefCell<String> = const { RefCell::new(String::new()) };
}

/// Keeps a message of debug!.
pub fn keep(message: fmt::Arguments<'_>) {
    LAST.with(|last| *last.borrow_mut() = message.to_string());
}

/// The last message of debug!, taken out.
pub fn take() -> String {
    LAST.with(|last| std::mem::take(&mut *last.borrow_mut()))
}

macro_rules! kept {
    (target: $target:expr, $($arg:tt)+) => {{
        let _ = $target;
        crate::stand_ins::log::keep(format_args!($($arg)+));
    }};
    ($($arg:tt)+) => { crate::stand_ins::log::keep(format_args!($($arg)+)) };
}

macro_rules! dropped {
    (target: $target:expr, $($arg:tt)+) => {{ let _ = ($target, format_args!($($arg)+)); }};
    ($($arg:tt)+) => {{ let _ = format_args!($($arg)+); }};
}

pub(crate) use dropped as error;
pub(crate) use dropped as info;
pub(crate) use dropped as trace;
pub(crate) use dropped as warn;
pub(crate) use kept as debug;
