//! ramp-bench over a real server.

mod common;

use common::{Act, Script, Server};
use std::process::{Command, Output};

fn bench(arguments: &str, url: &str) -> Output {
    Command::new(env!("CARGO_BIN_EXE_ramp-bench")).args(arguments.split_whitespace()).arg(url).output().expect("its end")
}

fn said(output: &Output) -> String {
    String::from_utf8_lossy(&output.stdout).into_owned()
}

fn complained(output: &Output) -> String {
    String::from_utf8_lossy(&output.stderr).into_owned()
}

#[test]
fn each_request_is_counted_once() {
    let server = Server::start(&["--stay", "--sessions", "32", "--slots", "8192", "t", "u"]);
    let url = server.url("t");
    // Each of two connections asks 50 times in batches of 8, the last one shorter.
    for (arguments, wanted) in [
        ("--mix put --mix get", vec!["put,put,2,8", "get,get,2,8"]),
        ("--mix put --read-first", vec!["put,put,2,8"]),
        ("--mix find --tenants t,u", vec!["find,find,2,8"]),
        ("--mix put=1,get=1,find=1 --size 0-128 --items 16 --keys 40", vec!["put=1 get=1 find=1,put", "", "", "put=1 get=1 find=1,all,2,8"]),
        ("--mix get --rate 1000", vec!["get,get,2,8"]),
    ] {
        let output = bench(&format!("--connections 2 --depth 8 --count 50 --csv {arguments}"), &url);
        assert!(output.status.success(), "{}", complained(&output));
        let said = said(&output);
        let rows: Vec<&str> = said.lines().skip(1).collect();
        assert_eq!(rows.len(), wanted.len(), "{said}");
        assert!(rows.iter().zip(&wanted).all(|(row, wanted)| row.starts_with(wanted)), "{said}");
        let last: Vec<&str> = rows[rows.len() - 1].split(',').collect();
        assert_eq!((last[5], last[11]), ("100", ""), "{said}");
    }
    for (form, shown) in [("", "p99.9 us"), ("--json", "\"put\":{\"requests\":")] {
        let output = bench(&format!("--connections 1 --mix put --seconds 0.1 --warmup 0 {form}"), &url);
        assert!(output.status.success() && said(&output).contains(shown), "{}", said(&output));
    }
    assert_eq!(server.verdict(), "settled t yes\nsettled u yes\n");
}

#[test]
fn refusals_are_no_figures() {
    let server = Server::start(&["--stay", "--sessions", "8", "--slots", "64", "--items", "2", "--parts", "1", "t"]);
    let url = server.url("t");
    let asked = "--connections 1 --keys 4 --items 3 --mix put --count 20 --no-fill";
    for (form, wanted) in [
        ("--csv", ",0,0,0.0,0.0,0.0,0.0,16 FullItems: 20,\n"),
        ("--json", "\"put\":{\"requests\":0,\"per_second\":0,"),
        ("", "20 of 20 requests failed (20 of put: 16 FullItems); the figures are of those answered well\nramp://"),
    ] {
        let output = bench(&format!("{asked} {form}"), &url);
        let said = said(&output);
        assert!(said.contains(wanted), "{said}");
        assert_eq!((output.status.code(), complained(&output)), (Some(1), String::new()), "{said}");
    }
    // Gets of the same mix are answered well, and counted alone.
    let output = bench("--connections 1 --keys 4 --items 3 --mix put=1,get=1 --count 40 --no-fill --csv", &url);
    let rows = said(&output);
    let count = |kind: &str| rows.lines().find(|row| row.contains(kind)).and_then(|row| row.split(',').nth(5)?.parse::<u32>().ok());
    let (puts, gets, all) = (count(",put,"), count(",get,"), count(",all,"));
    assert!(puts == Some(0) && gets > Some(0) && all == gets, "{rows}");
    let output = bench("--connections 1 --keys 4 --items 3 --mix get --count 20 --no-fill", &url);
    assert!(output.status.success() && said(&output).starts_with("ramp://") && said(&output).contains("errors: none"), "{}", said(&output));
    assert_eq!(server.verdict(), "settled t yes\n");
}

#[test]
fn puts_that_can_be_read_are_counted() {
    // Of a server whose puts are newest, each; of one connection alone, too.
    for (options, connections) in [(["--newest", "t"], 4), (["--strict", "t"], 1)] {
        let mut words = vec!["--stay", "--sessions", "8", "--slots", "4096"];
        words.extend(options);
        let server = Server::start(&words);
        let output = bench(&format!("--connections {connections} --mix put --count 50 --newest --csv"), &server.url("t"));
        let said = said(&output);
        assert!(said.ends_with(",,1.0000\n"), "{said}");
        assert_eq!(server.verdict(), "settled t yes\n");
    }
}

#[test]
fn what_is_wrong_is_told_in_a_line() {
    let full = Server::start(&["--items", "2", "--parts", "1", "t"]);
    let few = Server::start(&["--sessions", "8", "--clients", "2", "t"]);
    let false_one = |text: &str| {
        let hello = [Act::Accept, Act::HearAny, Act::HearAny, Act::Say(b"ready 0\nrefused 40\n".to_vec()), Act::HearAny];
        let script = Script::start(hello.into_iter().chain([Act::Say(text.into()), Act::Shut]).collect());
        // One number is one hello.
        format!("{}?client=1", script.url())
    };
    let mut gone = Server::start(&["t"]);
    gone.kill();
    for (arguments, url, status, told) in [
        ("--depth 0", full.url("t"), 2, "--depth takes a number from 1 to 64, and not \"0\""),
        ("--connections 1", full.url("t"), 1, "the keys can't be written: 16 FullItems"),
        ("--connections 3", few.url("t"), 1, "connection 3 of 3: refused 24 ClientsFull"),
        ("--connections 1 --mix get --no-fill", false_one("done 1.1\n"), 1, "\"done 1.1\" is no answer to a get"),
        ("--connections 1 --mix get --no-fill", false_one("read k0"), 1, "the server closed the connection"),
        ("--connections 1", gone.url("t"), 1, "nobody listens at 127.0.0.1"),
    ] {
        let output = bench(arguments, &url);
        let complained = complained(&output);
        assert_eq!((output.status.code(), complained.lines().count()), (Some(status), 1), "{complained}");
        assert!(complained.starts_with("ramp-bench: ") && complained.contains(told), "{complained}");
    }
}
