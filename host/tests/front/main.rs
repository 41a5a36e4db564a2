//! Tests of the built program, as the club uses it: `scripts/test-front` builds
//! it and runs these.

mod browser;
mod guide;
mod sessions;
mod shell;
