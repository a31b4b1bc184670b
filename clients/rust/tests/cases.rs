//! The cases that each client passes: clients/cases.txt says what its lines are.

mod common;

use common::{spelled, Act, Script, Server};
use ramp_client::codec::{self, Content};
use ramp_client::{check, Answer, Client, Config, Error, Fault, Group, Item, Part, Pipeline, Refusal, Retry, Write};
use std::collections::HashMap;
use std::path::Path;
use std::time::Duration;

/// A case's words or result: tokens, each as text.
type Tokens = Vec<String>;

/// A token as it stands for itself: `{N*TEXT}` is TEXT so many times, %XX a byte, and '' nothing.
fn token(text: &str) -> String {
    if text == "''" {
        return String::new();
    }
    let (mut repeated, mut rest) = (String::new(), text);
    while let Some((before, behind)) = rest.split_once('{') {
        repeated += before;
        let group = behind.split_once('}').and_then(|(inner, after)| Some((inner.split_once('*')?, after)));
        match group.and_then(|((count, inner), after)| Some((count.parse::<usize>().ok()?, inner, after))) {
            Some((count, inner, after)) => {
                repeated += &inner.repeat(count);
                rest = after;
            }
            None => {
                repeated.push('{');
                rest = behind;
            }
        }
    }
    repeated += rest;
    let (mut bytes, mut rest) = (Vec::new(), repeated.as_bytes());
    while let [first, behind @ ..] = rest {
        let digits = Some(behind).filter(|_| *first == b'%').and_then(|behind| std::str::from_utf8(behind.get(..2)?).ok());
        match digits.and_then(|digits| u8::from_str_radix(digits, 16).ok()) {
            Some(byte) => {
                bytes.push(byte);
                rest = &rest[3..];
            }
            None => {
                bytes.push(*first);
                rest = behind;
            }
        }
    }
    String::from_utf8(bytes).expect("UTF-8")
}

fn tokens(text: &str) -> Tokens {
    text.split(' ').map(token).collect()
}

fn of_hex(text: &str) -> Vec<u8> {
    (0..text.len() / 2).map(|place| u8::from_str_radix(&text[2 * place..2 * place + 2], 16).expect("hexadecimal")).collect()
}

fn hex(bytes: &[u8]) -> String {
    bytes.iter().map(|byte| format!("{byte:02x}")).collect()
}

fn group_name(group: Group) -> &'static str {
    match group {
        Group::WrongUse => "wrong",
        Group::Room => "room",
        Group::TryAgain => "again",
        Group::TrustNothing => "distrust",
        Group::Lost => "lost",
        Group::Unknown => "unknown",
    }
}

fn error_tokens(error: &Error) -> Tokens {
    let what = match error {
        Error::CannotConnect(_) => "CannotConnect".into(),
        Error::ConnectionLost(_) => "ConnectionLost".into(),
        Error::NoAnswer(_) => "NoAnswer".into(),
        Error::OutcomeUnknown(_) => "OutcomeUnknown".into(),
        Error::Restarted { .. } => "Restarted".into(),
        Error::Invalid(_) => "Invalid".into(),
        Error::NotWhole(_) => "NotWhole".into(),
        Error::FalseAnswer(_) => "FalseAnswer".into(),
        Error::Refused { refusal, .. } => refusal.number.to_string(),
        other => format!("{other:?}"),
    };
    vec!["error".into(), group_name(error.group()).into(), what]
}

fn or_error(result: Result<Tokens, Error>) -> Tokens {
    result.unwrap_or_else(|error| error_tokens(&error))
}

fn answer_tokens(answer: &Answer, word: &str) -> Tokens {
    match answer {
        Answer::Done(stamp) => vec!["done".into(), stamp.clone()],
        Answer::Items(items) => std::iter::once(if word == "find" { "list" } else { "read" }.to_string()).chain(items.iter().map(spelled)).collect(),
        Answer::Kept(versions) => vec!["keep".into(), versions.to_string()],
        Answer::Bye => vec!["bye".into()],
        Answer::Ready(_) | Answer::ReadyAs(..) | Answer::Info(_) => vec!["ready".into()],
    }
}

fn part(name: &str) -> Part {
    match name {
        "key" => Part::Key,
        "tag" => Part::Tag,
        "value" => Part::Value,
        _ => Part::Tenant,
    }
}

fn checked(name: &str, text: &str) -> Tokens {
    match check(part(name), text) {
        Ok(()) => vec!["ok".into()],
        Err(Error::Invalid(invalid)) => match invalid.fault {
            Fault::Length(length) => vec!["length".into(), length.to_string()],
            Fault::Byte { at, byte } => vec!["byte".into(), at.to_string(), format!("{byte:02x}")],
            other => vec![format!("{other:?}")],
        },
        Err(other) => error_tokens(&other),
    }
}

fn content_tokens(content: Option<Content>) -> Tokens {
    match content {
        Some(Content::Text(text)) => vec!["text".into(), text],
        Some(Content::Bytes(bytes)) => vec!["bytes".into(), hex(&bytes)],
        None => vec!["none".into()],
    }
}

fn content(kind: &str, text: &str) -> Content {
    if kind == "text" {
        Content::Text(text.into())
    } else {
        Content::Bytes(of_hex(text))
    }
}

fn item(word: &str) -> Item {
    let (head, value) = word.split_once('=').map_or((word, None), |(head, value)| (head, Some(value.to_string())));
    let (key, stamp) = head.split_once('@').expect("a stamp");
    Item { key: key.into(), value, tag: String::new(), stamp: stamp.into() }
}

/// The items of a put.
fn writes(words: &[String]) -> Vec<Write<'_>> {
    let write = |word: &'_ String| -> (usize, usize) {
        let equals = word.find('=').expect("a value");
        (word[..equals].find('#').unwrap_or(equals), equals)
    };
    words
        .iter()
        .map(|word| {
            let (sign, equals) = write(word);
            Write::new(&word[..sign], &word[equals + 1..]).tagged(word.get(sign + 1..equals).unwrap_or(""))
        })
        .collect()
}

fn record(words: &[String]) -> Result<Tokens, Error> {
    let (key, tag) = words[0].split_once('#').unwrap_or((&words[0], ""));
    let parts = codec::encode_record(key, &content(&words[1], &words[2]))?;
    let sign = |place| if place == 0 && !tag.is_empty() { format!("#{tag}") } else { String::new() };
    Ok(parts.iter().enumerate().map(|(place, (key, value))| format!("{key}{}={value}", sign(place))).collect())
}

fn address(url: &str) -> Result<Tokens, Error> {
    let config = Config::new(url)?;
    let said = format!("{config:?}");
    let newest = if said.contains("reads_first: true") { "client" } else { "server" };
    let number = match config.allowed_numbers() {
        [number] => number.to_string(),
        _ => "-".into(),
    };
    let timeout = config.answer_timeout().as_secs_f64().to_string();
    Ok(vec![config.host().into(), config.port().to_string(), config.tenant().into(), number, timeout, newest.into()])
}

fn refusal(number: &str) -> Tokens {
    let refusal = Refusal::of(number.parse().expect("a number")).expect("a refusal");
    let mut told = vec![refusal.name.to_string(), group_name(refusal.group).into()];
    if refusal.is_sent_again() {
        told.extend(["sent".into(), "again".into()]);
    }
    told
}

/// What asks no server.
fn alone(words: &[String]) -> Option<Tokens> {
    let whole = || words[1..].iter().map(String::as_str).collect::<Vec<_>>();
    let told = match (words[0].as_str(), &whole()[..]) {
        ("check", [name, text]) => checked(name, text),
        ("encode", ["text", text]) => or_error(codec::encode_text(text).map(|value| vec![value])),
        ("decode", ["text", value]) => or_error(codec::decode_text(value).map(|text| vec![text])),
        ("encode", ["bytes", text]) => or_error(codec::encode_bytes(&of_hex(text)).map(|value| vec![value])),
        ("decode", ["bytes", value]) => or_error(codec::decode_bytes(value).map(|bytes| vec![hex(&bytes)])),
        ("record", _) => or_error(record(&words[1..])),
        ("unrecord", [key, items @ ..]) => {
            let items: Vec<Item> = items.iter().map(|word| item(word)).collect();
            or_error(codec::decode_record(key, &items).map(content_tokens))
        }
        ("url", [url]) => or_error(address(url)),
        ("refusal", [number]) => refusal(number),
        _ => return None,
    };
    Some(told)
}

/// What the cases have running.
#[derive(Default)]
struct Stage {
    clients: HashMap<String, Client>,
    server: Option<Server>,
    script: Option<Script>,
    acts: Vec<Act>,
}

impl Stage {
    /// Ends all that runs, and gives what is wrong with how it ended.
    fn clear(&mut self) -> Option<String> {
        self.clients.clear();
        let said = self.server.take().map(Server::verdict).filter(|said| said.contains(" no") || !said.contains(" yes"));
        let went = self.script.take().and_then(|script| script.end().err());
        said.or(went)
    }

    fn connect(&mut self, words: &[String]) -> Result<Client, Error> {
        if !self.acts.is_empty() {
            self.script = Some(Script::start(std::mem::take(&mut self.acts)));
        }
        let port = self.server.as_ref().map(|it| it.port).or_else(|| self.script.as_ref().map(|it| it.port)).expect("a server");
        let mut config = Config::new(&format!("ramp://127.0.0.1:{port}/{}", words[0]))?;
        let mut retry = Retry { pause: Duration::from_millis(10), ..Retry::default() };
        if words[1] != "any" {
            config = config.client(words[1].parse().expect("a number"));
        }
        for option in &words[2..] {
            match option.split_once('=').expect("an option") {
                ("timeout", seconds) => config = config.timeout(Duration::from_secs_f64(seconds.parse().expect("seconds"))),
                ("attempts", count) => retry.attempts = count.parse().expect("a number"),
                _ => config = config.newest_by_server(),
            }
        }
        config.retry(retry).connect()
    }

    fn call(&mut self, words: &[String]) -> Tokens {
        let name = words[0].clone();
        match words[1].as_str() {
            "connect" => or_error(self.connect(&words[2..]).map(|client| {
                self.clients.insert(name, client);
                vec!["ready".into()]
            })),
            "close" => or_error(self.clients.remove(&name).expect("a client").close().map(|()| vec!["bye".into()])),
            "new_stores" => vec![self.clients[&name].new_stores().to_string()],
            "pipe" => pipe(self.clients.get_mut(&name).expect("a client"), &words[2..]),
            _ => or_error(single(self.clients.get_mut(&name).expect("a client"), &words[1..])),
        }
    }
}

fn single(client: &mut Client, words: &[String]) -> Result<Tokens, Error> {
    let rest = &words[1..];
    let answer = match words[0].as_str() {
        "put" => Answer::Done(client.put(writes(rest))?),
        "blind" => Answer::Done(client.put_blind(writes(rest))?),
        "get" => Answer::Items(client.get(rest)?),
        "find" => Answer::Items(client.find(&rest[0])?),
        // Its type has no other number.
        _ => match rest[0].parse() {
            Ok(versions) => Answer::Kept(client.keep(versions)?),
            Err(_) => return Ok(vec!["error".into(), "wrong".into(), "Invalid".into()]),
        },
    };
    Ok(answer_tokens(&answer, &words[0]))
}

fn add(pipeline: &mut Pipeline<'_>, words: &[String]) -> Result<(), Error> {
    let rest = &words[1..];
    match words[0].as_str() {
        "put" => pipeline.put(writes(rest)),
        "blind" => pipeline.put_blind(writes(rest)),
        "get" => pipeline.get(rest),
        "find" => pipeline.find(&rest[0]),
        _ => pipeline.keep(rest[0].parse().expect("a number")),
    }
    .map(|_| ())
}

fn pipe(client: &mut Client, words: &[String]) -> Tokens {
    let mut pipeline = client.pipeline();
    let calls: Vec<&[String]> = words.split(|word| word == ";").collect();
    for call in &calls {
        add(&mut pipeline, call).expect("a line");
    }
    let mut told = Tokens::new();
    for (call, answer) in calls.iter().zip(pipeline.run()) {
        if !told.is_empty() {
            told.push(";".into());
        }
        told.extend(or_error(answer.map(|answer| answer_tokens(&answer, &call[0]))));
    }
    told
}

/// The answer to a line of a server that answers this.
fn answered(line: &str, text: &str) -> Tokens {
    let hello = [Act::Accept, Act::Hear("hello t 5".into()), Act::Hear("info".into()), Act::Say(b"ready 0\nrefused 40\n".to_vec())];
    let said = [Act::Hear(line.into()), Act::Say(format!("{text}\n").into_bytes())];
    let mut stage = Stage { acts: hello.into_iter().chain(said).collect(), ..Stage::default() };
    let mut client = stage.connect(&["t".into(), "5".into(), "attempts=1".into(), "newest=server".into()]).expect("a session");
    let told = or_error(single(&mut client, &tokens(line)));
    drop(client);
    stage.clear().map_or(told, |wrong| vec![wrong])
}

/// What is said: the rest of a line as it stands, once repeats and bytes are put in.
fn act(line: &str) -> Option<Act> {
    let (word, rest) = line.split_once(' ').unwrap_or((line, ""));
    match word {
        "accept" => Some(Act::Accept),
        "hear" => Some(Act::Hear(token(rest))),
        "say" => Some(Act::Say(format!("{}\n", token(rest)).into_bytes())),
        "raw" => Some(Act::Say(token(rest).into_bytes())),
        "shut" => Some(Act::Shut),
        "wait" => Some(Act::Wait),
        _ => None,
    }
}

fn run(line: &str, stage: &mut Stage) -> Result<(), String> {
    if let Some(words) = line.strip_prefix("serve ") {
        let ended = stage.clear();
        stage.server = Some(Server::start(&words.split(' ').collect::<Vec<_>>()));
        return ended.map_or(Ok(()), Err);
    }
    if line.starts_with("script ") {
        return stage.clear().map_or(Ok(()), Err);
    }
    if let Some(act) = act(line) {
        stage.acts.push(act);
        return Ok(());
    }
    let (words, wanted) = line.rsplit_once(" => ").expect("a result");
    let told = match words.strip_prefix("false '").and_then(|rest| rest.split_once("' ")) {
        Some((asked, text)) => answered(asked, &token(text)),
        None => {
            let words = tokens(words);
            alone(&words).unwrap_or_else(|| stage.call(&words))
        }
    };
    if told == tokens(wanted) {
        Ok(())
    } else {
        Err(told.join(" "))
    }
}

#[test]
fn each_case_of_the_shared_list() {
    let path = Path::new(env!("CARGO_MANIFEST_DIR")).join("../cases.txt");
    let text = std::fs::read_to_string(path).expect("the cases");
    let mut stage = Stage::default();
    let mut wrong = Vec::new();
    for (place, line) in text.lines().enumerate().filter(|(_, line)| !line.is_empty() && !line.starts_with('#')) {
        if let Err(told) = run(line, &mut stage) {
            wrong.push(format!("{}: {line}\n    {told}", place + 1));
        }
    }
    wrong.extend(stage.clear());
    assert!(wrong.is_empty(), "{}", wrong.join("\n"));
}
