//! Our answers, at the face and through the wrapper, which have to say the same.

use gillacorn::ffi::QuickAnswer;
use gillacorn::{QuickLookup, Refusal};

use crate::rules::{Answer, Quick};

/// An answer of the face that breaks its own rule: fields that are not 0 beside no value.
const UNCLEAN: u32 = 1000;
/// The wrapper says something else than the face.
const WRAPPER: u32 = 2000;

/// An answer of the face: where no value is given, its fields have to be 0.
pub fn given<T: Default + PartialEq>(code: u32, value: T) -> Answer<T> {
    match code {
        0 => Ok(Some(value)),
        _ if value != T::default() => Err(UNCLEAN + code),
        255 => Ok(None),
        number => Err(number),
    }
}

/// The face's answer, if the wrapper's is the same.
pub fn both<T: PartialEq>(raw: Answer<T>, wrapped: Result<Option<T>, Refusal>) -> Answer<T> {
    if wrapped.map_err(Refusal::number) == raw {
        return raw;
    }
    Err(WRAPPER)
}

/// A quick lookup's answer, in which none has its probes too.
pub fn given_quick(raw: QuickAnswer) -> Result<Quick, u32> {
    let target = given(raw.code, raw.value);
    match target {
        Err(number) if raw.probes != 0 => Err(UNCLEAN + number),
        _ => target.map(|target| Quick {
            target,
            probes: raw.probes,
        }),
    }
}

/// The face's answer, if the wrapper's is the same.
pub fn both_quick(
    raw: Result<Quick, u32>,
    wrapped: Result<QuickLookup, Refusal>,
) -> Result<Quick, u32> {
    let wrapped = wrapped.map(|quick| Quick {
        target: quick.target_address,
        probes: quick.probes,
    });
    if wrapped.map_err(Refusal::number) == raw {
        return raw;
    }
    Err(WRAPPER)
}

/// A code of the face, if the wrapper's answer is the same.
pub fn code_if(same: bool, code: u32) -> u32 {
    if same {
        code
    } else {
        WRAPPER + code
    }
}
