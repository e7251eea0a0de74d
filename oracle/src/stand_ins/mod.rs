//! What the original's files use and is not part of them: ours, as small as the files allow.

// The files decide what is called; some of it nobody calls here.
#![allow(dead_code)]

pub mod block;
pub mod context;
pub mod parameter;
pub mod random;
pub mod sample;
pub mod stack_vec;
