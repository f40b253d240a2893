//! The C functions as the static library exports them; see `pierstride.h`.
//!
//! A slice is a pointer, which is not null even if the slice is empty, and a
//! length. Every reply begins with `refusal`, the number of the refusal and 0 if
//! there is none, and `place`, its place. Every field that says nothing in a case
//! is 0.
//!
//! Each function is unsafe to call for one reason: every pointer must be good
//! for as many bytes as the length beside it says, an output for writing and
//! apart from the table or the text.

/// The reply of [`pier_read`].
#[repr(C)]
#[derive(Clone, Copy, Debug)]
pub struct PierCounts {
    pub refusal: u32,
    pub place: usize,
    pub rows: u32,
    pub questions: u32,
    pub predicates: u32,
}

/// The reply of [`pier_decide`].
#[repr(C)]
#[derive(Clone, Copy, Debug)]
pub struct PierDecided {
    pub refusal: u32,
    pub place: usize,
    pub code: u32,
}

/// The reply of [`pier_possible`].
#[repr(C)]
#[derive(Clone, Copy, Debug)]
pub struct PierSet {
    pub refusal: u32,
    pub place: usize,
    pub set: u32,
}

/// The reply of [`pier_verdict`]; `reply` is 1 for holds, 2 for fails, 3 for
/// unfinished, and 0 on a refusal.
#[repr(C)]
#[derive(Clone, Copy, Debug)]
pub struct PierVerdictReply {
    pub refusal: u32,
    pub place: usize,
    pub reply: u32,
    pub request: u32,
    pub visits: u32,
}

/// The reply of every function that writes: [`pier_strike`], [`pier_suppliers`],
/// [`pier_dimacs`], [`pier_to_text`] and [`pier_from_text`].
#[repr(C)]
#[derive(Clone, Copy, Debug)]
pub struct PierWritten {
    pub refusal: u32,
    pub place: usize,
    pub length: usize,
}

/// The reply of [`pier_breaks`]; `breaks` is 1 or 0.
#[repr(C)]
#[derive(Clone, Copy, Debug)]
pub struct PierJudged {
    pub refusal: u32,
    pub place: usize,
    pub breaks: u32,
}

/// The reply of [`pier_entry`].
#[repr(C)]
#[derive(Clone, Copy, Debug)]
pub struct PierPart {
    pub refusal: u32,
    pub place: usize,
    pub start: usize,
    pub length: usize,
}

/// Declares the C functions. Each result is larger than 16 bytes.
///
/// On x86-64 they are declared as they are. In the library's native object for Arm
/// they take a pointer to the result as their first argument instead, and return
/// nothing; there each becomes a function of the same name that hides this.
macro_rules! c_functions {
    ($($(#[$doc:meta])* fn $name:ident($($argument:ident: $type:ty),*) -> $result:ty;)*) => {
        #[cfg(not(target_arch = "aarch64"))]
        extern "C" {
            $($(#[$doc])* pub fn $name($($argument: $type),*) -> $result;)*
        }

        $(
            $(#[$doc])*
            ///
            /// # Safety
            ///
            /// Every pointer must be good for the length beside it.
            #[cfg(target_arch = "aarch64")]
            pub unsafe fn $name($($argument: $type),*) -> $result {
                extern "C" {
                    fn $name(result: *mut $result, $($argument: $type),*);
                }
                let mut result = std::mem::MaybeUninit::uninit();
                $name(result.as_mut_ptr(), $($argument),*);
                result.assume_init()
            }
        )*
    };
}

c_functions! {
    /// The C function behind [`read`](crate::read).
    fn pier_read(table: *const u8, table_len: usize) -> PierCounts;

    /// The C function behind [`decide`](crate::decide).
    fn pier_decide(table: *const u8, table_len: usize, row: u32, yes: u32) -> PierDecided;

    /// The C function behind [`possible`](crate::possible).
    fn pier_possible(
        table: *const u8, table_len: usize, row: u32, known: u32, yes: u32
    ) -> PierSet;

    /// The C function behind [`verdict`](crate::verdict).
    fn pier_verdict(
        table: *const u8, table_len: usize, question: u32, budget: u32
    ) -> PierVerdictReply;

    /// The C function behind [`dimacs`](crate::dimacs).
    fn pier_dimacs(
        table: *const u8, table_len: usize, question: u32, out: *mut u8, out_len: usize
    ) -> PierWritten;

    /// The C function behind [`breaks`](crate::breaks).
    fn pier_breaks(table: *const u8, table_len: usize, question: u32, yes: u32) -> PierJudged;

    /// The C function behind [`strike`](crate::strike).
    fn pier_strike(
        table: *const u8, table_len: usize, row: u32, out: *mut u8, out_len: usize
    ) -> PierWritten;

    /// The C function behind [`entry`](crate::entry).
    fn pier_entry(table: *const u8, table_len: usize, row: u32) -> PierPart;

    /// The C function behind [`suppliers`](crate::suppliers).
    fn pier_suppliers(
        table: *const u8, table_len: usize, row: u32, out: *mut u8, out_len: usize
    ) -> PierWritten;

    /// The C function behind [`to_text`](crate::to_text).
    fn pier_to_text(
        table: *const u8, table_len: usize, out: *mut u8, out_len: usize
    ) -> PierWritten;

    /// The C function behind [`from_text`](crate::from_text).
    fn pier_from_text(
        text: *const u8, text_len: usize, out: *mut u8, out_len: usize
    ) -> PierWritten;
}
