//! What the tests share: a real server, and one that follows a script.
#![allow(dead_code)]

use std::fmt::Write as _;
use std::io::{BufRead, BufReader, Read, Write};
use std::net::{TcpListener, TcpStream};
use std::path::PathBuf;
use std::process::{Child, ChildStdout, Command, Stdio};
use std::sync::mpsc::{self, Receiver};
use std::thread;
use std::time::{Duration, Instant};

/// No test waits longer for anything.
pub const PATIENCE: Duration = Duration::from_secs(60);

/// The program that the variable RAMP_PROGRAM names, else the one that `./ramp` has built, else that of `./try`.
fn program() -> PathBuf {
    let top = PathBuf::from(env!("CARGO_MANIFEST_DIR")).join("../..");
    let named = std::env::var_os("RAMP_PROGRAM").map(PathBuf::from);
    let built = [top.join("crates/ramp/out/ramp"), top.join(".tried/ramp")];
    named.or_else(|| built.into_iter().find(|program| program.exists())).expect("a program: ./try --where builds one")
}

/// `ramp serve` with these words, which ends when as many connections as it was asked for have ended.
pub struct Server {
    process: Child,
    output: BufReader<ChildStdout>,
    pub port: u16,
}

impl Server {
    pub fn start(words: &[&str]) -> Server {
        Server::at(0, words)
    }

    /// At this port, which may have been another server's just before.
    pub fn at(port: u16, words: &[&str]) -> Server {
        let begun = Instant::now();
        loop {
            let mut process = Command::new(program())
                .args(["serve", "--port", &port.to_string()])
                .args(words)
                .stdin(Stdio::piped())
                .stdout(Stdio::piped())
                .stderr(if port == 0 { Stdio::inherit() } else { Stdio::null() })
                .spawn()
                .expect("a server");
            let mut output = BufReader::new(process.stdout.take().expect("its output"));
            let mut line = String::new();
            output.read_line(&mut line).expect("a line");
            if let Some(port) = line.trim_end().strip_prefix("listening ") {
                return Server { process, output, port: port.parse().expect("a port") };
            }
            process.wait().expect("its end");
            assert!(port != 0 && begun.elapsed() < PATIENCE, "no server at {port}");
            thread::sleep(Duration::from_millis(20));
        }
    }

    pub fn url(&self, tenant: &str) -> String {
        format!("ramp://127.0.0.1:{}/{tenant}", self.port)
    }

    pub fn kill(&mut self) {
        let _ = self.process.kill();
        let _ = self.process.wait();
    }

    /// Uses up the sessions that are left, ends its input, and gives what it says at its end.
    pub fn verdict(mut self) -> String {
        drop(self.process.stdin.take());
        let begun = Instant::now();
        while self.process.try_wait().expect("a status").is_none() {
            assert!(begun.elapsed() < PATIENCE, "the server does not end");
            drop(TcpStream::connect(("127.0.0.1", self.port)));
            thread::sleep(Duration::from_millis(5));
        }
        let mut said = String::new();
        self.output.read_to_string(&mut said).expect("its output");
        said
    }
}

impl Drop for Server {
    fn drop(&mut self) {
        self.kill();
    }
}

/// What a server of script does next.
#[derive(Clone, Debug)]
pub enum Act {
    Accept,
    /// Exactly this line has to come.
    Hear(String),
    /// Some line has to come.
    HearAny,
    /// These bytes are written, all at once.
    Say(Vec<u8>),
    /// These bytes are written one at a time, with a pause before each.
    Drip(Vec<u8>, Duration),
    Shut,
    /// It says no more; the connections stay until the end.
    Wait,
}

/// A server that follows a script in the background, and then the news of how it went.
pub struct Script {
    pub port: u16,
    went: Receiver<Result<(), String>>,
}

impl Script {
    pub fn start(acts: Vec<Act>) -> Script {
        let listener = TcpListener::bind("127.0.0.1:0").expect("a port");
        let port = listener.local_addr().expect("its address").port();
        let (tells, went) = mpsc::channel();
        thread::spawn(move || tells.send(follow(&listener, &acts)));
        Script { port, went }
    }

    pub fn url(&self) -> String {
        format!("ramp://127.0.0.1:{}/t", self.port)
    }

    /// Whether all of the script was done.
    pub fn end(self) -> Result<(), String> {
        self.went.recv_timeout(PATIENCE).unwrap_or_else(|_| Err("the script was not followed to its end".into()))
    }
}

fn follow(listener: &TcpListener, acts: &[Act]) -> Result<(), String> {
    let mut connections: Vec<BufReader<TcpStream>> = Vec::new();
    for act in acts {
        if let Act::Accept = act {
            let (stream, _) = listener.accept().map_err(|error| error.to_string())?;
            stream.set_read_timeout(Some(PATIENCE)).map_err(|error| error.to_string())?;
            stream.set_nodelay(true).map_err(|error| error.to_string())?;
            connections.push(BufReader::new(stream));
            continue;
        }
        let last = connections.last_mut().ok_or("no connection was accepted")?;
        match act {
            Act::Hear(_) | Act::HearAny => {
                let mut line = String::new();
                last.read_line(&mut line).map_err(|error| error.to_string())?;
                match act {
                    Act::Hear(wanted) if line.trim_end_matches('\n') != wanted => return Err(format!("heard {line:?} and not {wanted:?}")),
                    _ if line.is_empty() => return Err("heard the end".into()),
                    _ => {}
                }
            }
            // What is said to a client that is gone is heard by nobody.
            Act::Say(bytes) => drop(last.get_mut().write_all(bytes)),
            Act::Drip(bytes, pause) => {
                for byte in bytes {
                    thread::sleep(*pause);
                    if last.get_mut().write_all(&[*byte]).is_err() {
                        break;
                    }
                }
            }
            Act::Shut => drop(connections.pop()),
            Act::Wait | Act::Accept => {
                // The connections stay until the client's end of them does.
                let _ = last.read_to_end(&mut Vec::new());
            }
        }
    }
    Ok(())
}

/// An item as an answer's line has it.
pub fn spelled(item: &ramp_client::Item) -> String {
    let mut text = format!("{}@{}", item.key, item.stamp);
    if !item.tag.is_empty() {
        let _ = write!(text, "#{}", item.tag);
    }
    if let Some(value) = &item.value {
        let _ = write!(text, "={value}");
    }
    text
}
