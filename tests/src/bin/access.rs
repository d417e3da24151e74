//! Makes the access to lent memory that its argument names; most of them end it by SIGSEGV
//! (tests/pages.rs).

use std::env;

use shinglebar_tests::pages::Access;

fn main() {
    let name = env::args().nth(1).expect("the name of an access");
    let named = |access: &&Access| format!("{access:?}") == name;
    let access = Access::ALL.iter().find(named).expect("an access");
    access.make();
}
