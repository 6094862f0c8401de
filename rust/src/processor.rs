//! Which form of the library is called.

use crate::functions::bf_processor;
use core::ffi::CStr;

/// The processor whose form of the functions is called: "x86-64-v2", "x86-64-v3" or "aarch64".
///
/// The library chooses it before `main`, as the best that runs on this processor. Where the environment variable
/// `BINARY_FIELD_PROCESSOR` is x86-64-v2 then, that form is taken; the variable never raises the choice. Results are the same by
/// each form.
///
/// ```
/// assert!(["x86-64-v2", "x86-64-v3", "aarch64"].contains(&binary_field::processor()));
/// ```
pub fn processor() -> &'static str {
    // SAFETY: the library returns the address of a constant text, which a zero ends.
    let name = unsafe { CStr::from_ptr(bf_processor()) };
    name.to_str()
        .expect("the library names processors in ASCII")
}
