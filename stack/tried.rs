//! Whether the object code of other readers of nested lengths is told rightly: by a loop, or not.

use crate::object::{self, READING};
use crate::Tally;

/// By their files in `stack/tried/`; those that must be refused, with the words of the reason.
const TRIED: [(&str, Option<&str>); 6] = [
    ("by_loop", None),
    ("itself", Some("reaches itself")),
    ("through_another", Some("reaches itself")),
    ("by_address", Some("call *")),
    ("by_table", Some("has the address of")),
    ("wide_frame", Some("above 2048")),
];

pub fn all(tally: &mut Tally) {
    for (name, reason) in TRIED {
        let object = format!("target/stack/{name}.o");
        let seen = object::functions(&object)
            .and_then(|(functions, _)| object::most(&functions, READING[0]));
        let line = match (seen, reason) {
            (Ok((_, line)), None) => Ok(line),
            (Err(refusal), Some(reason)) if refusal.contains(reason) => {
                Ok(format!("{refusal}: refused, as it must be"))
            }
            (Ok((_, line)), Some(_)) => Err(format!("{line}: not refused")),
            (Err(refusal), _) => Err(refusal),
        };
        tally.count(&format!("tried/{name}"), line);
    }
}
