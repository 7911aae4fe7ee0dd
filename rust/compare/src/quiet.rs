//! Comparisons whose panic is caught and not printed.

use std::any::Any;
use std::cell::Cell;
use std::panic::{catch_unwind, set_hook, take_hook, AssertUnwindSafe};
use std::sync::Once;

thread_local! {
    /// Whether this thread's panics are caught and told by [`outcome`].
    static QUIET: Cell<bool> = const { Cell::new(false) };
}

/// Sets, once, a hook that prints what the one before prints, but nothing for
/// a panic that is caught here. Other threads' panics are printed.
fn set_quiet_hook() {
    static SET: Once = Once::new();
    SET.call_once(|| {
        let before = take_hook();
        set_hook(Box::new(move |panic| {
            if !QUIET.get() {
                before(panic);
            }
        }));
    });
}

/// The message of a caught panic.
fn message(panic: &(dyn Any + Send)) -> String {
    let text = panic.downcast_ref::<String>().map(String::as_str);
    let text = text.or_else(|| panic.downcast_ref::<&str>().copied());
    text.unwrap_or("a panic without words").to_string()
}

/// What the comparison gives for this input, or the message of its panic.
pub fn outcome(compare: fn(&[u8]) -> u8, input: &[u8]) -> Result<u8, String> {
    set_quiet_hook();
    let before = QUIET.replace(true);
    let caught = catch_unwind(AssertUnwindSafe(|| compare(input)));
    QUIET.set(before);
    caught.map_err(|panic| message(&*panic))
}

#[cfg(test)]
mod tests {
    use super::*;

    #[test]
    fn answers_and_messages() {
        assert_eq!(outcome(|bytes| bytes[0], &[5]), Ok(5));
        let fixed = outcome(|_| panic!("as it stands"), &[]);
        assert_eq!(fixed, Err("as it stands".into()));
        let made = outcome(|bytes| panic!("{} bytes", bytes.len()), &[0; 3]);
        assert_eq!(made, Err("3 bytes".into()));
        assert!(!QUIET.get());
    }
}
