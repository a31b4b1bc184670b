//! Servers that mean ill: each time an error of its own, and never an item that was not said.

mod common;

use common::{spelled, Act, Script};
use ramp_client::{Answer, Config, Error, Group, Retry, MOST_RESTARTS};
use std::time::Duration;

/// Draws that are the same each time.
struct Draw(u64);

impl Draw {
    fn below(&mut self, most: usize) -> usize {
        self.0 = self.0.wrapping_mul(6364136223846793005).wrapping_add(1442695040888963407);
        (self.0 >> 33) as usize % most
    }

    fn of<T: Copy>(&mut self, all: &[T]) -> T {
        all[self.below(all.len())]
    }
}

/// Lines that are asked, with what a server would say.
const ASKED: [(&str, &str); 5] = [
    ("get x y", "read x@3.1#red=1 y@0.0"),
    ("find red", "list x@3.1#red=1 y@4.2#red="),
    ("keep 5", "keep 5"),
    ("put x#red=1 y=2", "done 3.5"),
    ("get x", "restart x 9.1"),
];

/// What belongs to none of them, or to another.
const STRAY: [&str; 12] = [
    "",
    " ",
    "read",
    "read x@1.1=1  y@0.0",
    "list",
    "done 3.6",
    "ready 1",
    "refused 99",
    "ended 23",
    "bye",
    "restart z 1.1",
    "HTTP/1.1 400 Bad Request",
];

/// What is said in place of an answer, and how.
fn said(draw: &mut Draw, good: &str) -> Vec<Act> {
    let line = format!("{good}\n").into_bytes();
    let mut changed = line.clone();
    match draw.below(10) {
        0 => vec![Act::Say(line[..draw.below(line.len())].to_vec()), Act::Shut],
        1 => vec![Act::Say(line[..draw.below(line.len())].to_vec()), Act::Wait],
        2 => vec![Act::Drip(line, Duration::from_millis(1)), Act::Wait],
        3 => vec![Act::Drip(line[..line.len() - 1].to_vec(), Duration::from_millis(20)), Act::Wait],
        4 => vec![Act::Say(format!("{}\n", draw.of(&STRAY)).into_bytes()), Act::Wait],
        5 => vec![Act::Say(vec![b'a'; 4096 + draw.below(9000)]), Act::Wait],
        6 => vec![Act::Say((0..draw.below(6000)).map(|_| draw.below(256) as u8).collect()), Act::Shut],
        7 => {
            let at = draw.below(changed.len());
            changed[at] = draw.below(256) as u8;
            vec![Act::Say(changed), Act::Wait]
        }
        8 => {
            changed.insert(draw.below(line.len()), draw.of(b" \n\r\0@#=.,0~\x7f\xff"));
            vec![Act::Say(changed), Act::Wait]
        }
        _ => vec![Act::Say([line.clone(), line].concat()), Act::Wait],
    }
}

/// All that was said to the one line that was asked.
fn bytes_of(acts: &[Act]) -> Vec<u8> {
    acts.iter().flat_map(|act| if let Act::Say(bytes) | Act::Drip(bytes, _) = act { bytes.clone() } else { Vec::new() }).collect()
}

/// The answer as a line has it.
fn line_of(asked: &str, answer: &Answer) -> String {
    match answer {
        Answer::Done(stamp) => format!("done {stamp}"),
        Answer::Kept(versions) => format!("keep {versions}"),
        Answer::Items(items) => {
            let word = if asked.starts_with("find") { "list" } else { "read" };
            std::iter::once(word.to_string()).chain(items.iter().map(spelled)).collect::<Vec<_>>().join(" ")
        }
        other => format!("{other:?}"),
    }
}

/// Asks, as a pipeline of this one line.
fn ask(client: &mut ramp_client::Client, asked: &str) -> Result<Answer, Error> {
    let mut pipeline = client.pipeline();
    match asked {
        "get x y" => pipeline.get(&["x", "y"]),
        "get x" => pipeline.get(&["x"]),
        "find red" => pipeline.find("red"),
        "keep 5" => pipeline.keep(5),
        _ => pipeline.put_blind([ramp_client::Write::new("x", "1").tagged("red"), ("y", "2").into()]),
    }?;
    pipeline.run().pop().expect("an answer")
}

/// Whether what came of it is right, and what is wrong where it is not.
fn judge(asked: &str, bytes: &[u8], came: &Result<Answer, Error>) -> Result<(), String> {
    let is_right = match came {
        Ok(answer) => bytes.starts_with(format!("{}\n", line_of(asked, answer)).as_bytes()),
        Err(error) if asked.starts_with("put") => matches!(error.group(), Group::Unknown | Group::TrustNothing | Group::Room | Group::TryAgain),
        Err(error) => matches!(error.group(), Group::Lost | Group::TrustNothing) || matches!(error, Error::Restarted { .. } | Error::Refused { .. }),
    };
    Some(()).filter(|()| is_right).ok_or_else(|| format!("{asked:?} was answered {:?}: {came:?}", String::from_utf8_lossy(bytes)))
}

/// One line that is asked of a server that means ill.
fn round(draw: &mut Draw) -> Result<(), String> {
    let (asked, good) = draw.of(&ASKED);
    let said = said(draw, good);
    let hello =
        [Act::Accept, Act::Hear("hello t 5".into()), Act::Hear("info".into()), Act::Say(b"ready 0\nrefused 40\n".to_vec()), Act::Hear(asked.into())];
    let script = Script::start(hello.into_iter().chain(said.iter().cloned()).collect());
    let config = Config::new(&script.url()).expect("an address").client(5).timeout(Duration::from_millis(250)).retry(Retry::NONE);
    let mut client = match config.connect() {
        // On a busy machine the server's greeting may be late, too. Nothing was asked then.
        Err(Error::NoAnswer(_)) => return Ok(()),
        connected => connected.map_err(|error| error.to_string())?,
    };
    let came = ask(&mut client, asked);
    drop(client);
    script.end()?;
    judge(asked, &bytes_of(&said), &came)
}

#[test]
fn no_item_comes_of_what_was_not_said() {
    let wrong: Vec<String> = std::thread::scope(|scope| {
        let rounds = |seed| {
            let mut draw = Draw(seed);
            (0..30).filter_map(|_| round(&mut draw).err()).collect::<Vec<_>>()
        };
        let working: Vec<_> = (1..=16).map(|seed| scope.spawn(move || rounds(seed))).collect();
        working.into_iter().flat_map(|thread| thread.join().expect("its rounds")).collect()
    });
    assert!(wrong.is_empty(), "{wrong:?}");
}

#[test]
fn a_late_answer_is_never_taken_for_another() {
    let hello = || [Act::Accept, Act::Hear("hello t 5".into()), Act::Hear("info".into()), Act::Say(b"ready 0\nrefused 40\n".to_vec())];
    let late = [Act::Hear("get x".into()), Act::Drip(b"read x@1.1=late\n".to_vec(), Duration::from_millis(150))];
    let then = [Act::Hear("get x".into()), Act::Say(b"read x@2.1=right\n".to_vec())];
    let script = Script::start(hello().into_iter().chain(late).chain(hello()).chain(then).collect());
    let config = Config::new(&script.url()).expect("an address").client(5).timeout(Duration::from_secs(1)).retry(Retry::NONE);
    let mut client = config.clone().connect().expect("a session");
    assert_eq!(client.get(&["x"]), Err(Error::NoAnswer("no answer came within 1s".into())));
    // The next call has another connection, which the server accepts once it has noticed that the first one is closed.
    assert_eq!(client.get(&["x"]).expect("an item")[0].value.as_deref(), Some("right"));
    script.end().expect("its script");
}

#[test]
fn a_read_is_asked_for_again_so_often_and_no_more() {
    let hello = [Act::Accept, Act::Hear("hello t 5".into()), Act::Hear("info".into()), Act::Say(b"ready 0\nrefused 40\n".to_vec())];
    let outrun = || [Act::Hear("get x".into()), Act::Say(b"restart x 9.1\n".to_vec())];
    let script = Script::start(hello.into_iter().chain((0..=MOST_RESTARTS).flat_map(|_| outrun())).collect());
    let mut client = Config::new(&script.url()).expect("an address").client(5).connect().expect("a session");
    assert_eq!(client.get(&["x"]), Err(Error::Restarted { key: "x".into(), floor: "9.1".into() }));
    script.end().expect("its script");
}

#[test]
fn what_was_not_asked_for_is_no_answer() {
    let hello = || [Act::Accept, Act::Hear("hello t 5".into()), Act::Hear("info".into()), Act::Say(b"ready 0\nrefused 40\n".to_vec())];
    for ahead in ["read x@9.1=ahead\n", "read x@9.1=ah", "\n"] {
        let twice = [Act::Hear("get x".into()), Act::Say(format!("read x@1.1=1\n{ahead}").into_bytes())];
        let then = [Act::Hear("get x".into()), Act::Say(b"read x@2.1=right\n".to_vec())];
        let script = Script::start(hello().into_iter().chain(twice).chain(hello()).chain(then).collect());
        let mut client = Config::new(&script.url()).expect("an address").client(5).retry(Retry::NONE).connect().expect("a session");
        for value in ["1", "right"] {
            assert_eq!(client.get(&["x"]).expect("an item")[0].value.as_deref(), Some(value), "{ahead:?}");
        }
        script.end().expect("its script");
    }
}

#[test]
fn a_pipeline_that_is_cut_tells_of_each_line() {
    let hello = [Act::Accept, Act::Hear("hello t 5".into()), Act::Hear("info".into()), Act::Say(b"ready 0\nrefused 40\n".to_vec())];
    let lines = ["get x", "put x=1", "put x=2", "get x"].map(|line| Act::Hear(line.into()));
    let cut = [Act::Say(b"read x@0.0\ndone 1.5\ndone".to_vec()), Act::Shut];
    let script = Script::start(hello.into_iter().chain(lines).chain(cut).collect());
    let mut client = Config::new(&script.url()).expect("an address").client(5).retry(Retry::NONE).connect().expect("a session");
    let mut pipeline = client.pipeline();
    pipeline.put([("x", "1")]).and_then(|it| it.put([("x", "2")])).and_then(|it| it.get(&["x"])).expect("lines");
    let answers = pipeline.run();
    assert_eq!(answers[0], Ok(Answer::Done("1.5".into())));
    assert_eq!(answers[1].as_ref().map_err(Error::group), Err(Group::Unknown));
    assert_eq!(answers[2].as_ref().map_err(Error::group), Err(Group::Lost));
    script.end().expect("its script");
}
