//! A panic of the reference as something to report, not as the end of the
//! bench.

use std::cell::Cell;
use std::panic::{self, AssertUnwindSafe};
use std::sync::Once;

thread_local! {
    static AWAITED: Cell<bool> = const { Cell::new(false) };
}

static HOOK: Once = Once::new();

/// What `act` gives, or what it panicked with. Nothing is printed for such a
/// panic; any other is printed as ever.
pub fn or_panic<T>(act: impl FnOnce() -> T) -> Result<T, String> {
    HOOK.call_once(|| {
        let printing = panic::take_hook();
        panic::set_hook(Box::new(move |info| {
            if !AWAITED.get() {
                printing(info);
            }
        }));
    });
    AWAITED.set(true);
    let acted = panic::catch_unwind(AssertUnwindSafe(act));
    AWAITED.set(false);
    acted.map_err(|payload| {
        let text = payload.downcast_ref::<String>().map(String::as_str);
        let text = text.or_else(|| payload.downcast_ref::<&str>().copied());
        format!("the reference panics: {}", text.unwrap_or("?"))
    })
}

#[cfg(test)]
mod tests {
    use super::*;

    #[test]
    fn a_panic_is_reported() {
        assert_eq!(or_panic(|| 5), Ok(5));
        let words = [1, 2];
        let place = words.len();
        let said = or_panic(|| words[place]).unwrap_err();
        assert!(said.starts_with("the reference panics: index out of"));
        assert!(or_panic(|| -> u8 { panic!("plain") })
            .unwrap_err()
            .ends_with("plain"));
    }
}
