//! The C header against the archive: call.c is compiled with it, linked and run.

use rubblewaltz_host::c_program::{command, compile};
use std::path::Path;

#[test]
fn each_call_from_c() {
    let program = compile("call", Path::new(env!("CARGO_TARGET_TMPDIR")));
    let status = command(&program).status().expect("call.c's program starts");
    assert_eq!(
        status.code(),
        Some(0),
        "the number of the call that differs"
    );
}
