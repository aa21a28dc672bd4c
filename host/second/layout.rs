//! Where each field of the lent bytes begins, how many bytes there are, the values of
//! a state byte, the same of a row of the status page (ROW_), the last call and the last
//! refusal: `host/layout.h`, as `host/layout.c` prints it.

include!("../../target/host/layout.rs");
