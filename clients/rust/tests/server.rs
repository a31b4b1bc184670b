//! What the shared cases do not have: connections that come and go, over a real server.

mod common;

use common::{spelled, Act, Script, Server};
use ramp_client::{tagged, Client, Config, Error, Group, Retry, Write};
use std::collections::BTreeSet;
use std::time::{Duration, Instant};

#[test]
fn a_line_is_answered_as_it_stands() {
    let server = Server::start(&["--sessions", "3", "t"]);
    let mut client = Client::connect(&server.url("t")).expect("a session");
    let number = client.number();
    for (line, answer) in [
        ("put x#red=1 y=2".to_string(), format!("done 1.{number}")),
        ("get x y".into(), format!("read x@1.{number}#red=1 y@1.{number}=2")),
        ("get".into(), "refused 13".into()),
        ("what".into(), "refused 40".into()),
        ("bye".into(), "bye".into()),
        // A session that was ended is opened again.
        ("get z".into(), "read z@0.0".into()),
    ] {
        assert_eq!(client.ask(&line), Ok(answer), "{line}");
    }
    for line in ["", "get x\nget y", &"x".repeat(4095)] {
        assert_eq!(client.ask(line).map_err(|error| error.group()), Err(Group::WrongUse));
    }
    client.close().expect("its end");
    assert_eq!(server.verdict(), "settled t yes\n");
}

#[test]
fn a_tag_is_for_all_but_those_that_have_one() {
    let server = Server::start(&["t"]);
    let mut client = Client::connect(&server.url("t")).expect("a session");
    let items = [Write::new("a", "1"), Write::new("b", "2").tagged("blue")];
    client.put(tagged("red", items)).expect("a stamp");
    let found = |client: &mut Client, tag: &str| client.find(tag).expect("items").into_iter().map(|item| item.key).collect::<Vec<_>>();
    assert_eq!(found(&mut client, "red"), ["a"]);
    assert_eq!(found(&mut client, "blue"), ["b"]);
}

#[test]
fn text_and_bytes_are_read_as_they_were_written() {
    let server = Server::start(&["--stay", "--sessions", "4", "t"]);
    let pool = Config::new(&server.url("t")).expect("an address").pool(2);
    let long = "zwei W\u{f6}rter ".repeat(60);
    for text in ["two words", "", &long, "{\"a\": [1, 2]}"] {
        pool.put_text("note", text).expect("a stamp");
        assert_eq!(pool.get_text("note"), Ok(Some(text.into())));
    }
    let bytes: Vec<u8> = (0..=255).collect();
    pool.put_bytes("hash", &bytes).expect("a stamp");
    assert_eq!(pool.get_bytes("hash"), Ok(Some(bytes)));
    assert_eq!((pool.get_text("none"), pool.get_bytes("none")), (Ok(None), Ok(None)));
    pool.put([("plain.0", "value")]).expect("a stamp");
    for (error, told) in [
        (pool.get_text("hash").map(|_| ()), "has bytes and no text: get_bytes reads it"),
        (pool.get_bytes("note").map(|_| ()), "has text and no bytes: get_text reads it"),
        (pool.get_text("plain").map(|_| ()), "does not begin as one"),
        (pool.put_text("note", &"x".repeat(2047)).map(|_| ()), "2047"),
        (pool.put_text(&"k".repeat(31), "x").map(|_| ()), "33"),
    ] {
        let error = error.expect_err(told);
        assert!(error.group() == Group::WrongUse && error.to_string().contains(told), "{error}");
    }
    drop(pool);
    assert_eq!(server.verdict(), "settled t yes\n");
}

#[test]
fn sessions_beside_many_have_numbers_of_their_own() {
    let server = Server::start(&["--sessions", "302", "--clients", "300", "t"]);
    let config = Config::new(&server.url("t")).expect("an address").retry(Retry::NONE);
    let mut clients: Vec<Client> = (0..300).map(|_| config.clone().connect().expect("a session")).collect();
    let numbers: BTreeSet<u16> = clients.iter().map(Client::number).collect();
    assert_eq!(numbers.len(), 300);
    let refused = config.clone().connect().expect_err("a refusal");
    assert_eq!(refused.group(), Group::Room, "{refused}");
    // Each number that it gives is taken by now: one that is free again is given again.
    let freed = clients.pop().expect("a client");
    let number = freed.number();
    freed.close().expect("its end");
    assert_eq!(config.connect().expect("a session").number(), number);
    drop(clients);
    assert_eq!(server.verdict(), "settled t yes\n");
}

#[test]
fn a_client_outlives_its_server() {
    let mut first = Server::start(&["t"]);
    let mut client = Config::new(&first.url("t")).expect("an address").connect().expect("a session");
    client.put([("x", "1")]).expect("a stamp");
    first.kill();
    let second = Server::at(first.port, &["--sessions", "2", "t"]);
    // Nothing was sent on the connection that had ended: so this is no unknown outcome.
    std::thread::sleep(Duration::from_millis(50));
    client.put([("x", "2")]).expect("a stamp");
    assert_eq!(client.get(&["x"]).expect("items").iter().map(spelled).collect::<Vec<_>>(), [format!("x@1.{}=2", client.number())]);
    assert_eq!(client.new_stores(), 1);
    // A session of the same store goes on from its counter.
    assert_eq!(client.ask("bye"), Ok("bye".into()));
    client.get(&["x"]).expect("items");
    assert_eq!(client.new_stores(), 1);
    client.close().expect("its end");
    assert_eq!(second.verdict(), "settled t yes\n");
}

#[test]
fn what_a_server_tells_of_itself() {
    for (word, newest) in [("--newest", true), ("--strict", false)] {
        let mut first = Server::start(&["--sessions", "2", word, "t"]);
        let mut client = Config::new(&first.url("t")).expect("an address").connect().expect("a session");
        let told = client.server().expect("what it tells").clone();
        assert_eq!((told.version.as_str(), told.newest), (env!("CARGO_PKG_VERSION"), newest));
        let asked = Config::new(&first.url("t?newest=server")).expect("an address").connect();
        assert_eq!(asked.map(|_| ()).map_err(|error| error.group()), if newest { Ok(()) } else { Err(Group::WrongUse) });
        // One that has written and read nothing notices a new store, too.
        first.kill();
        let second = Server::at(first.port, &["--sessions", "2", "t"]);
        std::thread::sleep(Duration::from_millis(50));
        assert_eq!(client.get(&["x"]).expect("items")[0].value, None);
        assert!(client.server().expect("what it tells").store > told.store);
        assert_eq!(client.new_stores(), 1);
        client.close().expect("its end");
        assert_eq!(second.verdict(), "settled t yes\n");
    }
}

/// Neither `hello TENANT any` nor `info` is known there, and a strict one ends at them.
#[test]
fn an_older_server() {
    let said = |text: &str| Act::Say(text.into());
    let first = || vec![Act::Accept, Act::Hear("hello t any".into()), Act::Hear("info".into())];
    // The numbers that are tried: one of them is free.
    let tried = || vec![Act::HearAny, Act::HearAny, Act::HearAny, Act::HearAny, said("refused 12\nready 3\nrefused 12\nrefused 12\n")];
    let asked = || vec![Act::Hear("get x".into()), said("read x@0.0\n")];
    let lenient = [first(), vec![said("refused 40\nrefused 40\n")], tried(), asked()].concat();
    let strict = [first(), vec![said("refused 40\n"), Act::Shut, Act::Accept], tried(), asked()].concat();
    for acts in [lenient, strict] {
        let script = Script::start(acts);
        let config = Config::new(&format!("ramp://127.0.0.1:{}/t", script.port)).expect("an address").retry(Retry::NONE);
        let mut client = config.connect().expect("a session");
        assert_eq!(client.get(&["x"]).expect("items")[0].value, None);
        assert_eq!((client.server(), client.new_stores()), (None, 0));
        drop(client);
        script.end().expect("all of the script");
    }
}

#[test]
fn what_debug_prints_has_nothing_that_was_written_or_read() {
    let server = Server::start(&["--sessions", "3", "t"]);
    let mut client = Client::connect(&server.url("t")).expect("a session");
    client.put([Write::new("key", "secret")]).expect("a stamp");
    client.get(&["key"]).expect("items");
    let number = client.number();
    assert_eq!(format!("{client:?}"), format!("Client {{ {}, client {number} }}", server.url("t")));
    let mut pipeline = client.pipeline();
    pipeline.put([Write::new("key", "secret")]).expect("a line");
    assert_eq!(format!("{pipeline:?}"), format!("Pipeline {{ 1 lines, Client {{ {}, client {number} }} }}", server.url("t")));
    let pool = Config::new(&server.url("t")).expect("a URL").pool(2);
    assert_eq!(format!("{pool:?}"), format!("Pool {{ {}, of 2 clients, 0 waiting }}", server.url("t")));
    let taken = pool.take().expect("a session");
    assert_eq!(format!("{taken:?}"), format!("Client {{ {}, client {} }}", server.url("t"), taken.number()));
}

#[test]
fn nobody_listens() {
    let mut server = Server::start(&["t"]);
    server.kill();
    let begun = Instant::now();
    let retry = Retry { attempts: 3, ..Retry::default() };
    let error = Config::new(&server.url("t")).expect("an address").retry(retry).connect().expect_err("no server");
    assert!(matches!(&error, Error::CannotConnect(why) if why.starts_with("nobody listens")), "{error}");
    assert!(begun.elapsed() >= Duration::from_millis(75), "two pauses of at least 25 and 50 ms");
}

#[test]
fn what_is_wrong_is_told() {
    let client = |url: &str| Client::connect(url).map(|_| ()).expect_err("an error").to_string();
    assert_eq!(client("ramp://127.0.0.1:0/t"), "the URL \"ramp://127.0.0.1:0/t\" has no port from 1 to 65535, and takes ramp://HOST:PORT/TENANT");
    let server = Server::start(&["t"]);
    let mut client = Client::connect(&server.url("t")).expect("a session");
    let long = "v".repeat(142);
    for (item, told) in [
        (("a", "two words"), "the value of a \"two words\" has the byte 0x20 at 3, and takes 0 to 128 bytes from ! to ~".to_string()),
        (("a", &long), format!("the value of a {:?} has 142 bytes, and takes 0 to 128 bytes from ! to ~", &long[..64])),
        (("A", "1"), "the key \"A\" has the byte 0x41 at 0, and takes 1 to 32 bytes of a-z 0-9 _ . / -".to_string()),
    ] {
        assert_eq!(client.put([item]).expect_err("an error").to_string(), told);
    }
    let nothing: [&str; 0] = [];
    assert_eq!(client.get(&nothing).expect_err("an error").to_string(), "the items \"\" are 0, and takes 1 to 16 different keys");
}
