// The job of `asp_state pipe` in plain Rust over the crate httparse, to compare with: no contract, no proof, items in std's hash
// map, or in its ordered map where the last word is `ordered`. Each reply is written by a call of its own, as `asp_state` does.
// bench/plain_pipe.sh builds it. Use: plain_pipe START STEP FIRST [ordered] < requests > replies
use std::collections::{BTreeMap, HashMap};
use std::io::{Read, Write};

const MAX: u64 = 9_223_372_036_854_775_807;
const MOMENT: u64 = 1 << 62;
/// How long an item lives at most, in milliseconds.
const WHOLE_LIFE: u64 = 86_400_000;

struct Item { body: Vec<u8>, minutes: u64, fresh: bool, holder: Option<(u64, u64)>, touched: u64, ends: u64 }

enum Ask { Read, Acquire, Release(u64), Write { minutes: u64, fresh: bool, cookie: u64 }, Remove(u64), Reset }

fn number(text: &[u8], max: u64) -> Option<u64> {
    if text.is_empty() || text.len() > 20 { return None; }
    let mut n: u64 = 0;
    for &b in text {
        if !b.is_ascii_digit() { return None; }
        n = n.checked_mul(10)?.checked_add((b - b'0') as u64)?;
    }
    (n <= max).then_some(n)
}

fn trim(mut text: &[u8]) -> &[u8] {
    while let [b' ' | b'\t', rest @ ..] = text { text = rest; }
    while let [rest @ .., b' ' | b'\t'] = text { text = rest; }
    text
}

/// Absent, one value, or twice.
fn once<'a>(fields: &[httparse::Header<'a>], name: &str) -> Result<Option<&'a [u8]>, ()> {
    let mut found = None;
    for f in fields {
        if f.name.eq_ignore_ascii_case(name) {
            if found.is_some() { return Err(()); }
            found = Some(trim(f.value));
        }
    }
    Ok(found)
}

fn hex(b: u8) -> Option<u8> { (b as char).to_digit(16).map(|d| d as u8) }

fn decode(target: &[u8]) -> Vec<u8> {
    let mut out = Vec::with_capacity(target.len());
    let mut i = 0;
    while i < target.len() {
        if target[i] == b'%' && i + 2 < target.len() {
            if let (Some(h), Some(l)) = (hex(target[i + 1]), hex(target[i + 2])) { out.push(h * 16 + l); i += 3; continue; }
        }
        out.push(target[i]);
        i += 1;
    }
    out
}

enum Parsed { More, Broken, Message { head: usize, body: usize, ask: Option<(Vec<u8>, Ask)> } }

fn ask_of(verb: &str, fields: &[httparse::Header], key: &[u8]) -> Result<Ask, ()> {
    if key.is_empty() || key.len() > 1024 { return Err(()); }
    let field = |name: &str, max: u64| -> Result<Option<u64>, ()> {
        match once(fields, name)? { None => Ok(None), Some(v) => number(v, max).map(Some).ok_or(()) }
    };
    match verb {
        "GET" => match once(fields, "Exclusive")? {
            None => Ok(Ask::Read),
            Some(v) if v.eq_ignore_ascii_case(b"acquire") => Ok(Ask::Acquire),
            Some(v) if v.eq_ignore_ascii_case(b"release") => Ok(Ask::Release(field("LockCookie", MAX)?.ok_or(())?)),
            Some(_) => Err(()),
        },
        "PUT" => {
            let minutes = field("Timeout", 525_600)?.unwrap_or(20);
            if minutes == 0 { return Err(()); }
            Ok(Ask::Write { minutes, fresh: field("ExtraFlags", 1)? == Some(1), cookie: field("LockCookie", MAX)?.unwrap_or(0) })
        }
        "DELETE" => Ok(Ask::Remove(field("LockCookie", MAX)?.unwrap_or(0))),
        "HEAD" => Ok(Ask::Reset),
        _ => Err(()),
    }
}

fn parse(held: &[u8]) -> Parsed {
    let mut fields = [httparse::EMPTY_HEADER; 64];
    let mut request = httparse::Request::new(&mut fields);
    let window = &held[..held.len().min(8192)];
    match request.parse(window) {
        Err(_) => Parsed::Broken,
        Ok(httparse::Status::Partial) => if held.len() >= 8192 { Parsed::Broken } else { Parsed::More },
        Ok(httparse::Status::Complete(head)) => {
            let body = match once(request.headers, "Content-Length") {
                Ok(None) => 0,
                Ok(Some(v)) => match number(v, 4_194_304) { Some(n) => n as usize, None => return Parsed::Broken },
                Err(()) => return Parsed::Broken,
            };
            if held.len() < head + body { return Parsed::More; }
            let key = decode(request.path.unwrap().as_bytes());
            let ask = ask_of(request.method.unwrap(), request.headers, &key).ok().map(|a| (key, a));
            Parsed::Message { head, body, ask }
        }
    }
}

enum Reply<'a> { Found { body: &'a [u8], minutes: u64, cookie: u64, first: bool }, Done, Locked { cookie: u64, age: u64, since: Option<u64> }, Missing, Bad, CookiesOut }

fn write_reply(out: &mut impl Write, r: &Reply) -> std::io::Result<()> {
    let mut head: Vec<u8> = Vec::with_capacity(256);
    match r {
        Reply::Found { body, minutes, cookie, first } => {
            write!(head, "HTTP/1.1 200 OK\r\nTimeout: {minutes}\r\n")?;
            if *cookie != 0 { write!(head, "LockCookie: {cookie}\r\n")?; }
            if *first { write!(head, "ActionFlags: 1\r\n")?; }
            write!(head, "Content-Length: {}\r\n\r\n", body.len())?;
            out.write_all(&head)?;
            return if body.is_empty() { Ok(()) } else { out.write_all(body) };
        }
        Reply::Locked { cookie, age, since } => {
            write!(head, "HTTP/1.1 423 Locked\r\nLockCookie: {cookie}\r\nLockAge: {age}\r\n")?;
            if let Some(since) = since { write!(head, "LockDate: {since}\r\n")?; }
            write!(head, "Content-Length: 0\r\n\r\n")?;
        }
        Reply::Done => head.extend(b"HTTP/1.1 200 OK\r\nContent-Length: 0\r\n\r\n"),
        Reply::Missing => head.extend(b"HTTP/1.1 404 Not Found\r\nContent-Length: 0\r\n\r\n"),
        Reply::Bad => head.extend(b"HTTP/1.1 400 Bad Request\r\nContent-Length: 0\r\n\r\n"),
        Reply::CookiesOut => head.extend(b"HTTP/1.1 507 Cookies Out\r\nContent-Length: 0\r\n\r\n"),
    }
    out.write_all(&head)
}

/// A map from keys to items.
trait Items {
    fn find(&mut self, key: &[u8]) -> Option<&mut Item>;
    fn put(&mut self, key: Vec<u8>, item: Item);
    fn cut(&mut self, key: &[u8]);
}

impl Items for HashMap<Vec<u8>, Item> {
    fn find(&mut self, key: &[u8]) -> Option<&mut Item> { self.get_mut(key) }
    fn put(&mut self, key: Vec<u8>, item: Item) { self.insert(key, item); }
    fn cut(&mut self, key: &[u8]) { self.remove(key); }
}

impl Items for BTreeMap<Vec<u8>, Item> {
    fn find(&mut self, key: &[u8]) -> Option<&mut Item> { self.get_mut(key) }
    fn put(&mut self, key: Vec<u8>, item: Item) { self.insert(key, item); }
    fn cut(&mut self, key: &[u8]) { self.remove(key); }
}

struct Desk<M: Items> { items: M }

impl<M: Items> Desk<M> {
    fn act(&mut self, out: &mut impl Write, key: Vec<u8>, ask: Ask, body: &[u8], t: u64, drawn: u64) -> std::io::Result<()> {
        if matches!(ask, Ask::Acquire) && drawn == 0 { return write_reply(out, &Reply::CookiesOut); }
        let live = self.items.find(&key).is_some_and(|i| t < (i.touched + i.minutes * 60_000).min(i.ends));
        let locked = |i: &Item| match i.holder {
            Some((cookie, since)) => Reply::Locked { cookie, age: t.saturating_sub(since) / 1000, since: Some(since) },
            None => Reply::Locked { cookie: 0, age: 0, since: None },
        };
        if !live {
            return match ask {
                Ask::Write { minutes, fresh, cookie: 0 } => {
                    self.items.put(key, Item { body: body.to_vec(), minutes, fresh, holder: None, touched: t, ends: t + WHOLE_LIFE });
                    write_reply(out, &Reply::Done)
                }
                _ => { self.items.cut(&key); write_reply(out, &Reply::Missing) }
            };
        }
        let item = self.items.find(&key).unwrap();
        let holder = item.holder.map(|h| h.0);
        match ask {
            Ask::Read | Ask::Acquire => {
                if holder.is_some() { return write_reply(out, &locked(item)); }
                let first = std::mem::take(&mut item.fresh);
                item.touched = item.touched.max(t);
                let cookie = if matches!(ask, Ask::Acquire) { item.holder = Some((drawn, t)); drawn } else { 0 };
                write_reply(out, &Reply::Found { body: &item.body, minutes: item.minutes, cookie, first })
            }
            Ask::Release(c) => match holder {
                None => write_reply(out, &Reply::Done),
                Some(h) if h == c => { item.holder = None; item.touched = item.touched.max(t); write_reply(out, &Reply::Done) }
                Some(_) => write_reply(out, &locked(item)),
            },
            Ask::Write { minutes, fresh, cookie } => match holder {
                _ if cookie == 0 && fresh => write_reply(out, &Reply::Done),
                None if cookie == 0 => { item.body = body.to_vec(); item.minutes = minutes; item.fresh = false; item.touched = item.touched.max(t); write_reply(out, &Reply::Done) }
                Some(h) if h == cookie => { item.body = body.to_vec(); item.minutes = minutes; item.fresh = fresh; item.holder = None; item.touched = item.touched.max(t); write_reply(out, &Reply::Done) }
                _ => write_reply(out, &locked(item)),
            },
            Ask::Remove(c) => {
                let ok = match holder { None => c == 0, Some(h) => h == c };
                if !ok { return write_reply(out, &locked(item)); }
                self.items.cut(&key);
                write_reply(out, &Reply::Done)
            }
            Ask::Reset => { item.touched = item.touched.max(t); write_reply(out, &Reply::Done) }
        }
    }
}

fn run<M: Items>(items: M, start: u64, step: u64, first: u64) {
    let mut desk = Desk { items };
    let mut input = std::io::stdin().lock();
    let mut out = std::fs::File::from(std::os::fd::OwnedFd::from(std::os::fd::AsFd::as_fd(&std::io::stdout()).try_clone_to_owned().unwrap()));
    let mut held: Vec<u8> = Vec::new();
    let mut piece = [0u8; 16384];
    let mut at = 0;
    let (mut k, mut draws) = (0u64, 0u64);
    loop {
        let n = input.read(&mut piece).expect("read");
        if n == 0 { break; }
        held.drain(..at);
        at = 0;
        held.extend_from_slice(&piece[..n]);
        loop {
            match parse(&held[at..]) {
                Parsed::More => break,
                Parsed::Broken => { write_reply(&mut out, &Reply::Bad).unwrap(); std::process::exit(3) }
                Parsed::Message { head, body, ask } => {
                    let t = (start as u128 + k as u128 * step as u128).min(MOMENT as u128) as u64;
                    k += 1;
                    let content = &held[at + head..at + head + body];
                    match ask {
                        None => write_reply(&mut out, &Reply::Bad).unwrap(),
                        Some((key, ask)) => {
                            let mut drawn = 0;
                            if matches!(ask, Ask::Acquire) {
                                drawn = if first as u128 + draws as u128 > MAX as u128 { 0 } else { first + draws };
                                draws += 1;
                            }
                            desk.act(&mut out, key, ask, content, t, drawn).unwrap()
                        }
                    }
                    at += head + body;
                }
            }
            if at == held.len() { break; }
        }
    }
    if at < held.len() { write_reply(&mut out, &Reply::Bad).unwrap(); std::process::exit(3) }
}

fn main() {
    let words: Vec<String> = std::env::args().skip(1).collect();
    let number = |at: usize| words[at].parse().expect("a number");
    let (start, step, first) = (number(0), number(1), number(2));
    if words.get(3).is_some_and(|word| word == "ordered") {
        run(BTreeMap::new(), start, step, first);
    } else {
        run(HashMap::new(), start, step, first);
    }
}
