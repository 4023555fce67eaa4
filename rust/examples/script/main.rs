//! Runs a script (`docs/SCRIPTS.md`) on the table, and writes the history text as `nio script` does: the calls on
//! selectors, channels, keys and interrupts. Each caller of the script is a thread, which makes its lines' calls.
//!
//! It ends at a line that a program can't say by this crate's types, and writes a comment that says why: a caller that
//! selects makes no other call, and a time isn't negative.

use nio_table::{
    Asked, Caller, CallerNumber, Channel, Key, Kind, Limits, Ops, Ready, Selected, Selection, Selector, Table, Told,
    Wait, Why,
};
use std::collections::HashMap;
use std::error::Error;
use std::io;
use std::iter;
use std::sync::mpsc::{channel, Receiver, Sender};
use std::thread;
use std::time::Duration;

mod replies;
use replies::{no_channel, no_selector, ok, said, yes, Refused};

/// Why a line isn't made.
type Stop = &'static str;

const MALFORMED: Stop = "no line of a script";
const ELSEWHERE: Stop = "this crate has no such call";
const SELECTING: Stop = "a caller that selects makes no other call";

/// The words of a line behind the caller's name, and whom it interrupts.
struct Line {
    words: Vec<String>,
    interrupts: Option<CallerNumber>,
}

impl Line {
    fn word(&self, at: usize) -> Result<&str, Stop> {
        self.words.get(at).map(String::as_str).ok_or(MALFORMED)
    }

    fn number(&self, at: usize) -> Result<u64, Stop> {
        self.word(at)?.parse().map_err(|_| MALFORMED)
    }

    fn ops(&self, at: usize) -> Result<Ops, Stop> {
        Ok(Ops::from_bits(u8::try_from(self.number(at)?).map_err(|_| MALFORMED)?))
    }

    fn selector(&self, at: usize) -> Result<Selector, Stop> {
        Ok(Selector(name('s', self.word(at)?)?.0))
    }

    fn channel(&self, at: usize) -> Result<Channel, Stop> {
        let (number, serial) = name('c', self.word(at)?)?;
        Ok(Channel { number, serial })
    }

    /// The key that two words name: its selector, and the name there, which operations may follow.
    fn key(&self, selector: usize, at: usize) -> Result<Key, Stop> {
        let (index, serial) = name('k', self.word(at)?.split(':').next().ok_or(MALFORMED)?)?;
        Ok(Key { selector: self.selector(selector)?, index, serial })
    }

    fn wait(&self) -> Result<Wait, Stop> {
        match (self.word(2)?, self.words.get(3).map(String::as_str)) {
            ("now", None) => Ok(Wait::Now),
            ("wait", None) | ("for", Some("0")) => Ok(Wait::Forever),
            ("for", Some(_)) => {
                let ms = self.number(3).map_err(|_| "a time isn't negative")?;
                Ok(Wait::For(Duration::from_millis(ms)))
            }
            _ => Err(MALFORMED),
        }
    }
}

/// The number and the serial in a name.
fn name(letter: char, word: &str) -> Result<(u32, u32), Stop> {
    let numbers = word.strip_prefix(letter).ok_or(MALFORMED)?;
    let (number, serial) = numbers.split_once('.').unwrap_or((numbers, "0"));
    Ok((number.parse().map_err(|_| MALFORMED)?, serial.parse().map_err(|_| MALFORMED)?))
}

fn named(letter: char, number: u32, serial: u32) -> String {
    if serial == 0 {
        format!("{letter}{number}")
    } else {
        format!("{letter}{number}.{serial}")
    }
}

fn key_name(key: Key) -> String {
    named('k', key.index, key.serial)
}

// ---- calls

const CALLER_CALLS: [&str; 5] = ["interrupt", "interrupted", "begin", "told", "failed"];
const SELECTOR_CALLS: [&str; 6] = ["selector", "wakeup", "close", "close-end", "keys", "selected"];
const CHANNEL_CALLS: [&str; 8] =
    ["channel", "blocking", "is-blocking", "is-open", "is-registered", "closec", "key-for", "register"];
const KEY_CALLS: [&str; 10] =
    ["valid", "interest", "ready", "iset", "ior", "iand", "unselect", "cancel", "attach", "attachment"];

fn is_call(word: &str) -> bool {
    [&CALLER_CALLS[..], &SELECTOR_CALLS, &CHANNEL_CALLS, &KEY_CALLS].iter().any(|calls| calls.contains(&word))
}

/// The calls but for those of selections.
fn call(caller: &mut Caller, line: &Line) -> Result<String, Stop> {
    match line.word(0)? {
        "interrupt" => Ok(ok(caller.interrupt(line.interrupts.ok_or(MALFORMED)?))),
        "interrupted" => Ok(yes(caller.interrupted())),
        "told" | "failed" => Ok("not-selecting".into()),
        word if SELECTOR_CALLS.contains(&word) => on_selector(caller, line),
        word if CHANNEL_CALLS.contains(&word) => on_channel(caller, line),
        _ => on_key(caller, line),
    }
}

fn on_selector(caller: &mut Caller, line: &Line) -> Result<String, Stop> {
    if line.word(0)? == "selector" {
        return Ok(caller.open_selector().map_or_else(no_selector, |opened| named('s', opened.0, 0)));
    }
    let selector = line.selector(1)?;
    Ok(match line.word(0)? {
        "wakeup" => ok(caller.wakeup(selector).map(|_pending| ())),
        "close" => said(caller.shut(selector).map(|began| if began { "closing" } else { "already" })),
        "close-end" => said(caller.try_finish(selector).map(|()| "closed")),
        "keys" => said(caller.keys(selector).map(listed)),
        _ => said(caller.selected_keys(selector).map(listed)),
    })
}

fn listed(keys: Vec<Key>) -> String {
    let names: Vec<String> = keys.into_iter().map(key_name).collect();
    if names.is_empty() {
        "none".into()
    } else {
        names.join(" ")
    }
}

fn on_channel(caller: &mut Caller, line: &Line) -> Result<String, Stop> {
    match line.word(0)? {
        "channel" => {
            let opened = caller.open_channel(kind(line.word(1)?)?);
            return Ok(opened.map_or_else(no_channel, |channel| named('c', channel.number, channel.serial)));
        }
        "register" => {
            let attachment = if line.words.len() > 4 { line.number(4)? } else { 0 };
            let made = caller.register(line.selector(1)?, line.channel(2)?, line.ops(3)?, attachment);
            return Ok(said(made.map(key_name)));
        }
        _ => {}
    }
    let channel = line.channel(1)?;
    Ok(match line.word(0)? {
        "blocking" => ok(caller.set_blocking(channel, line.word(2)? == "on")),
        "is-blocking" => yes(caller.is_blocking(channel)),
        "is-open" => yes(caller.is_open(channel)),
        "is-registered" => yes(caller.is_registered(channel)),
        "closec" => if caller.close_channel(channel) { "ok" } else { "already" }.into(),
        _ => caller.key_for(channel, line.selector(2)?).map_or_else(|| "none".into(), key_name),
    })
}

fn kind(word: &str) -> Result<Kind, Stop> {
    match word {
        "stream" => Ok(Kind::Stream),
        "listener" => Ok(Kind::Listener),
        "source" => Ok(Kind::Source),
        "sink" => Ok(Kind::Sink),
        "datagram" => Ok(Kind::Datagram),
        _ => Err(MALFORMED),
    }
}

fn on_key(caller: &mut Caller, line: &Line) -> Result<String, Stop> {
    let key = line.key(1, 2)?;
    Ok(match line.word(0)? {
        "valid" => yes(caller.is_valid(key)),
        "interest" => said(caller.interest(key).map(Ops::bits)),
        "ready" => said(caller.ready(key).map(Ops::bits)),
        "iset" => ok(caller.set_interest(key, line.ops(3)?)),
        "ior" => said(caller.interest_or(key, line.ops(3)?).map(Ops::bits)),
        "iand" => said(caller.interest_and(key, line.ops(3)?).map(Ops::bits)),
        "unselect" => yes(caller.unselect(key)),
        "cancel" => if caller.cancel(key) { "ok" } else { "no-key" }.into(),
        "attach" => caller.attach(key, line.number(3)?).to_string(),
        _ => caller.attachment(key).to_string(),
    })
}

// ---- selections

fn looked(asked: &[Asked]) -> String {
    let pair = |it: &Asked| format!("{}:{}", key_name(it.key), it.interest.bits());
    iter::once("looked".to_string()).chain(asked.iter().map(pair)).collect::<Vec<_>>().join(" ")
}

/// What a line tells of the keys that the selection asks for. An index alone could name a later key there.
fn ready(line: &Line, asked: &[Asked]) -> Result<Vec<Ready>, Stop> {
    let mut list = Vec::new();
    for (at, word) in line.words.iter().enumerate().skip(2).filter(|(_, word)| *word != "elapsed") {
        let key = line.key(1, at)?;
        let bits = word.split_once(':').and_then(|(_, bits)| bits.parse().ok()).ok_or(MALFORMED)?;
        if asked.iter().any(|it| it.key == key) {
            list.push(Ready { index: key.index, ops: Ops::from_bits(bits) });
        }
    }
    Ok(list)
}

fn over(selected: Selected) -> String {
    let why = match selected.why {
        Why::Ready => "ready",
        Why::Now => "now",
        Why::Woken => "woken",
        Why::Closed => "closed",
        Why::Interrupted => "interrupted",
        Why::Elapsed => "elapsed",
    };
    format!("selected {} {why}", selected.count)
}

// ---- threads

/// What a caller's thread has of the one that reads the script.
struct Desk {
    lines: Receiver<Line>,
    replies: Sender<Result<String, Stop>>,
}

impl Desk {
    fn reply(&self, reply: Result<String, Stop>) {
        self.replies.send(reply).expect("who reads the script waits for it");
    }

    /// Makes the calls of a caller's lines.
    fn serve(&self, caller: &mut Caller) {
        while let Ok(line) = self.lines.recv() {
            if line.words[0] == "begin" {
                self.select(caller, &line);
            } else {
                self.reply(call(caller, &line));
            }
        }
    }

    /// A whole selection, from the line that begins it to the one that ends it.
    fn select(&self, caller: &mut Caller, line: &Line) {
        let (selector, wait) = match line.selector(1).and_then(|selector| Ok((selector, line.wait()?))) {
            Ok(both) => both,
            Err(stop) => return self.reply(Err(stop)),
        };
        let mut selection = match caller.select(selector, wait) {
            Ok(selection) => selection,
            Err(error) => return self.reply(Ok(error.reply().into())),
        };
        let asked = selection.asked();
        self.reply(Ok(if asked.is_empty() { "looked none".into() } else { looked(&asked) }));
        while let Ok(line) = self.lines.recv() {
            let (reply, left) = match line.words[0].as_str() {
                "told" if line.selector(1) == Ok(selector) => told(selection, &line, &asked),
                "failed" if line.selector(1) == Ok(selector) => {
                    selection.leave();
                    (Ok("left".into()), None)
                }
                _ => (Err(SELECTING), Some(selection)),
            };
            self.reply(reply);
            let Some(same) = left else { return };
            selection = same;
        }
    }
}

/// Tells the selection what the line says. The selection, where it goes on.
fn told<'a>(selection: Selection<'a>, line: &Line, asked: &[Asked]) -> (Result<String, Stop>, Option<Selection<'a>>) {
    let ready = match ready(line, asked) {
        Ok(ready) => ready,
        Err(stop) => return (Err(stop), Some(selection)),
    };
    let elapsed = line.words.iter().any(|word| word == "elapsed");
    match selection.told(&ready, elapsed) {
        Ok(Told::Done(selected)) => (Ok(over(selected)), None),
        Ok(Told::Again(same)) => (Ok("again".into()), Some(same)),
        Err(_no_memory) => (Err("there is no memory"), None),
    }
}

/// A caller of the script: its number at the table, and what its thread is told and answers.
struct Player {
    number: CallerNumber,
    lines: Sender<Line>,
    replies: Receiver<Result<String, Stop>>,
}

/// Who reads the script. It looks names up by a caller of its own.
struct Reader {
    table: Table,
    caller: Caller,
    players: HashMap<String, Player>,
}

impl Reader {
    fn player(&mut self, name: &str) -> Result<&Player, Stop> {
        if !self.players.contains_key(name) {
            let mut caller = self.table.caller().map_err(|_| "the table has no further caller")?;
            let ((lines, given), (answers, replies)) = (channel(), channel());
            let player = Player { number: caller.number(), lines, replies };
            let desk = Desk { lines: given, replies: answers };
            thread::spawn(move || desk.serve(&mut caller));
            self.players.insert(name.into(), player);
        }
        Ok(&self.players[name])
    }

    /// The first name in the line that was never made; `told` may tell of a key that wasn't.
    fn missing(&mut self, line: &Line) -> Result<Option<&'static str>, Stop> {
        if matches!(line.word(0)?, "channel" | "selector" | "interrupt" | "interrupted") {
            return Ok(None);
        }
        for (at, word) in line.words.iter().enumerate().skip(1) {
            let (is_there, reply) = match word.chars().next() {
                Some('s') => (self.caller.has_selector(line.selector(at)?), "no-selector"),
                Some('c') => (self.caller.has_channel(line.channel(at)?), "no-channel"),
                Some('k') if line.word(0)? != "told" => (self.caller.has_key(line.key(1, at)?), "no-key"),
                _ => continue,
            };
            if !is_there {
                return Ok(Some(reply));
            }
        }
        Ok(None)
    }

    /// The reply to a line.
    fn reply(&mut self, text: &str) -> Result<String, Stop> {
        let (name, words) = text.split_once(' ').ok_or(MALFORMED)?;
        let words: Vec<String> = words.split(' ').map(String::from).collect();
        if !is_call(&words[0]) {
            return Err(ELSEWHERE);
        }
        let interrupts =
            if words[0] == "interrupt" { Some(self.player(words.get(1).ok_or(MALFORMED)?)?.number) } else { None };
        let line = Line { words, interrupts };
        if let Some(reply) = self.missing(&line)? {
            return Ok(reply.into());
        }
        let player = self.player(name)?;
        player.lines.send(line).expect("the caller's thread waits for it");
        player.replies.recv().expect("the caller's thread replies")
    }
}

fn main() -> Result<(), Box<dyn Error>> {
    let table = Table::new(Limits { callers: 63, selectors: 16, channels: 1024, keys: 1024 })?;
    let caller = table.caller()?;
    let mut reader = Reader { table, caller, players: HashMap::new() };
    let mut count = 0;
    for line in io::stdin().lines() {
        let line = line?;
        if line.is_empty() || line.starts_with('#') {
            continue;
        }
        match reader.reply(&line) {
            Ok(reply) => {
                count += 1;
                println!("{count} {line} -> {reply}");
            }
            Err(stop) => {
                println!("# stopped before: {line}\n# {stop}");
                break;
            }
        }
    }
    Ok(())
}
