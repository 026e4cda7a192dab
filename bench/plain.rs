//! The state command as a plain Rust program: no proofs, std's map with its default hasher.
//! plain AT FILE
use std::collections::HashMap;
use std::fmt::Write as _;
use std::io::Write as _;
use std::process::exit;

#[derive(Clone, Copy, PartialEq, Eq, PartialOrd, Ord, Hash)]
enum Thread {
    Idle(u32),
    Tid(u32),
}

// Variants stand in the order in which they are listed.
#[derive(Clone, Copy, PartialEq, Eq, PartialOrd, Ord, Hash)]
enum Leaf {
    Status,
    Name,
    Cpu,
    Prio,
}

#[derive(Clone, Copy, PartialEq, Eq, PartialOrd, Ord, Hash)]
enum Kind {
    Cpu(u32),
    Thread(Thread, Leaf),
}

#[derive(Clone, Copy, PartialEq, Eq, PartialOrd, Ord, Hash)]
struct Path {
    host: u32,
    kind: Kind,
}

#[derive(Clone, Copy, PartialEq, Eq)]
enum Value {
    Int(i64),
    Comm([u8; 16]),
}

const RUNNING: Value = Value::Int(1);
const READY: Value = Value::Int(2);
const BLOCKED: Value = Value::Int(3);
const ENDED: Value = Value::Int(4);

fn number(word: &[u8]) -> Option<u64> {
    if word.is_empty() || (word[0] == b'0' && word.len() > 1) || word[0] == b'+' {
        return None;
    }
    std::str::from_utf8(word).ok()?.parse().ok()
}

fn signed(word: &[u8]) -> Option<i64> {
    match word.strip_prefix(b"-") {
        Some(b"0") => None,
        Some(digits) => {
            number(digits)?;
            std::str::from_utf8(word).ok()?.parse().ok()
        }
        None => i64::try_from(number(word)?).ok(),
    }
}

fn is_plain(byte: u8) -> bool {
    (33..=126).contains(&byte) && byte != b'%'
}

fn hex(byte: u8) -> Option<u8> {
    match byte {
        b'0'..=b'9' => Some(byte - b'0'),
        b'A'..=b'F' => Some(byte - b'A' + 10),
        _ => None,
    }
}

fn comm(word: &[u8]) -> Option<[u8; 16]> {
    let mut name = [0; 16];
    if word == b"%" {
        return Some(name);
    }
    let mut len = 0;
    let mut bytes = word.iter();
    while let Some(&byte) = bytes.next() {
        let byte = if byte == b'%' {
            let byte = hex(*bytes.next()?)? * 16 + hex(*bytes.next()?)?;
            if is_plain(byte) {
                return None;
            }
            byte
        } else if is_plain(byte) {
            byte
        } else {
            return None;
        };
        if byte == 0 || len == 15 {
            return None;
        }
        name[len] = byte;
        len += 1;
    }
    Some(name)
}

fn thread(tid: u32, cpu: u32) -> Thread {
    if tid == 0 { Thread::Idle(cpu) } else { Thread::Tid(tid) }
}

fn tid(word: &[u8]) -> Option<u32> {
    u32::try_from(number(word)?).ok().filter(|tid| *tid < 1 << 31)
}

struct Switch {
    key: u64,
    host: u32,
    cpu: u32,
    prev: u32,
    prev_comm: [u8; 16],
    prev_prio: i32,
    prev_state: i64,
    next: u32,
    next_comm: [u8; 16],
    next_prio: i32,
}

fn event(line: &[u8]) -> Option<Switch> {
    let words: Vec<&[u8]> = line.split(|byte| *byte == b' ').collect();
    let [key, host, cpu, time, b"switch", prev, prev_comm, prev_prio, prev_state, next, next_comm, next_prio] =
        words[..]
    else {
        return None;
    };
    number(time).filter(|time| (1..1 << 62).contains(time))?;
    Some(Switch {
        key: number(key).filter(|key| *key < 1 << 62)?,
        host: number(host).filter(|host| *host < 64)? as u32,
        cpu: u32::try_from(number(cpu)?).ok()?,
        prev: tid(prev)?,
        prev_comm: comm(prev_comm)?,
        prev_prio: i32::try_from(signed(prev_prio)?).ok()?,
        prev_state: signed(prev_state)?,
        next: tid(next)?,
        next_comm: comm(next_comm)?,
        next_prio: i32::try_from(signed(next_prio)?).ok()?,
    })
}

fn apply(values: &mut HashMap<Path, Value>, event: &Switch) {
    let host = event.host;
    let prev = thread(event.prev, event.cpu);
    let next = thread(event.next, event.cpu);
    let at = |thread, leaf| Path { host, kind: Kind::Thread(thread, leaf) };
    let status = at(prev, Leaf::Status);
    if values.get(&status) != Some(&ENDED) {
        let left = if event.prev_state & 0xff == 0 { READY } else { BLOCKED };
        values.insert(status, left);
    }
    values.insert(at(prev, Leaf::Name), Value::Comm(event.prev_comm));
    values.insert(at(prev, Leaf::Prio), Value::Int(event.prev_prio.into()));
    values.insert(at(next, Leaf::Status), RUNNING);
    values.insert(at(next, Leaf::Name), Value::Comm(event.next_comm));
    values.insert(at(next, Leaf::Cpu), Value::Int(event.cpu.into()));
    values.insert(at(next, Leaf::Prio), Value::Int(event.next_prio.into()));
    values.insert(Path { host, kind: Kind::Cpu(event.cpu) }, Value::Int(event.next.into()));
}

fn write_row(text: &mut String, path: &Path, value: &Value) {
    let host = path.host;
    let is_status = matches!(path.kind, Kind::Thread(_, Leaf::Status));
    match path.kind {
        Kind::Cpu(cpu) => write!(text, "h{host}/Cpu/{cpu}/Thread "),
        Kind::Thread(thread, leaf) => {
            let leaf = match leaf {
                Leaf::Status => "Status",
                Leaf::Name => "Name",
                Leaf::Cpu => "Cpu",
                Leaf::Prio => "Prio",
            };
            match thread {
                Thread::Idle(cpu) => write!(text, "h{host}/Thread/0_{cpu}/{leaf} "),
                Thread::Tid(tid) => write!(text, "h{host}/Thread/{tid}/{leaf} "),
            }
        }
    }
    .unwrap();
    match *value {
        Value::Int(1) if is_status => text.push_str("status running"),
        Value::Int(2) if is_status => text.push_str("status ready"),
        Value::Int(3) if is_status => text.push_str("status blocked"),
        Value::Int(4) if is_status => text.push_str("status ended"),
        Value::Int(number) => write!(text, "int {number}").unwrap(),
        Value::Comm(name) => {
            text.push_str("comm ");
            let len = name.iter().position(|byte| *byte == 0).unwrap();
            if len == 0 {
                text.push('%');
            }
            for &byte in &name[..len] {
                if is_plain(byte) {
                    text.push(byte.into());
                } else {
                    write!(text, "%{byte:02X}").unwrap();
                }
            }
        }
    }
    text.push('\n');
}

fn bad(line: usize) -> ! {
    eprintln!("list line {line}");
    exit(2)
}

fn main() {
    let words: Vec<String> = std::env::args().collect();
    let at: u64 = words[1].parse().unwrap();
    let bytes = std::fs::read(&words[2]).unwrap();
    let Some(rest) = bytes.strip_prefix(b"hosttrace events 1\n") else { bad(1) };
    let mut values = HashMap::new();
    let mut least = 0;
    if !rest.is_empty() {
        let Some(lines) = rest.strip_suffix(b"\n") else { bad(0) };
        for (number, line) in lines.split(|byte| *byte == b'\n').enumerate() {
            let Some(event) = event(line) else { bad(number + 2) };
            if event.key < least {
                bad(number + 2);
            }
            least = event.key;
            if event.key <= at {
                apply(&mut values, &event);
            }
        }
    }
    let mut rows: Vec<(Path, Value)> = values.into_iter().collect();
    rows.sort_unstable_by_key(|row| row.0);
    let mut text = String::new();
    for (path, value) in &rows {
        write_row(&mut text, path, value);
    }
    std::io::stdout().write_all(text.as_bytes()).unwrap();
}
