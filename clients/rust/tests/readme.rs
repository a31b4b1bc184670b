//! The program that README.md shows: it is examples/shop.rs, and it runs.

mod common;

use common::Server;
use std::path::PathBuf;
use std::process::Command;

/// The program of this name that `cargo test` has built of examples/.
fn example(name: &str) -> PathBuf {
    let mut folder = std::env::current_exe().expect("this test");
    folder.pop();
    folder.pop();
    folder.join("examples").join(format!("{name}{}", std::env::consts::EXE_SUFFIX))
}

#[test]
fn readme_shows_a_program_that_runs() {
    let shown = include_str!("../README.md").split("```rust,no_run\n").nth(1).and_then(|rest| rest.split("```").next());
    assert_eq!(shown, Some(include_str!("../examples/shop.rs")));
    let server = Server::start(&["--sessions", "2", "t"]);
    let ran = Command::new(example("shop")).arg(server.url("t")).output().expect("its end");
    let said = String::from_utf8_lossy(&ran.stdout);
    assert!(ran.status.success(), "{ran:?}");
    assert!(said.starts_with("sold 1\nstock 7\nDone(\"2."), "{said}");
    assert_eq!(server.verdict(), "settled t yes\n");
}
