//! The C face (include/gillacorn.h), function by function, behind slices: codes and numbers as C
//! has them. All `unsafe` of this crate is here: a slice is a pointer that is never null and a
//! length that it holds, which is all the face asks.

mod answers;
mod functions;
mod names;

pub(crate) use self::answers::for_each_flag;
pub use self::answers::*;
pub use self::functions::*;
pub use self::names::*;
