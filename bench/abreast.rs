// The broker of bench/abreast, and one of the clients that it compares. Standard library only: rustc -O bench/abreast.rs.
//
// abreast broker LEFT GRANTED MILLISECONDS [EVERY:MILLISECONDS ..]: answers every lookup at once, with so many seconds left, and every
// renewal so late (each 100th one after a second with `100:1000`), with so many seconds granted, on connections that live as long as
// the client wants. It prints its port; when its input ends, how many renewals there were, when the first and the last came
// (nanoseconds since 1970), and how many were under way at once at most.
//
// abreast client PORT K FILE: K threads with a connection each send the requests of FILE (a line each: method, path, token, body),
// once a line comes in, and read each reply whole. It prints how many were granted.
use std::io::{BufRead, BufReader, Read, Write};
use std::net::{TcpListener, TcpStream};
use std::sync::atomic::{AtomicUsize, Ordering};
use std::sync::{Arc, Mutex};
use std::time::{Duration, SystemTime, UNIX_EPOCH};

/// What a lookup tells, and what a renewal grants, in seconds.
#[derive(Clone, Copy)]
struct Terms {
    left: u64,
    granted: u64,
}

fn now() -> u128 {
    SystemTime::now().duration_since(UNIX_EPOCH).map_or(0, |since| since.as_nanos())
}

/// The moment of so many seconds since 1970: its year, month, day, weekday (0 is a Sunday), and its hour, minute and second as text.
fn date(seconds: u64) -> (u64, u64, u64, u64, String) {
    let days = seconds / 86_400 + 719_468;
    let (era, day_of_era) = (days / 146_097, days % 146_097);
    let year_of_era = (day_of_era - day_of_era / 1_460 + day_of_era / 36_524 - day_of_era / 146_096) / 365;
    let day_of_year = day_of_era - (365 * year_of_era + year_of_era / 4 - year_of_era / 100);
    let march = (5 * day_of_year + 2) / 153;
    let (day, month) = (day_of_year - (153 * march + 2) / 5 + 1, if march < 10 { march + 3 } else { march - 9 });
    let clock = format!("{:02}:{:02}:{:02}", seconds / 3_600 % 24, seconds / 60 % 60, seconds % 60);
    (year_of_era + era * 400 + u64::from(month <= 2), month, day, (seconds / 86_400 + 4) % 7, clock)
}

fn http_date(seconds: u64) -> String {
    let (year, month, day, weekday, clock) = date(seconds);
    let names = ["Sun", "Mon", "Tue", "Wed", "Thu", "Fri", "Sat"];
    let months = ["Jan", "Feb", "Mar", "Apr", "May", "Jun", "Jul", "Aug", "Sep", "Oct", "Nov", "Dec"];
    format!("{}, {day:02} {} {year} {clock} GMT", names[weekday as usize], months[month as usize - 1])
}

fn rfc3339(seconds: u64) -> String {
    let (year, month, day, _, clock) = date(seconds);
    format!("{year}-{month:02}-{day:02}T{clock}Z")
}

/// A message's first line, the head's value of `Content-Length`, whether the connection is to be closed, and the body.
struct Message {
    first: String,
    closes: bool,
    body: String,
}

fn read(reader: &mut BufReader<TcpStream>) -> Option<Message> {
    let (mut first, mut line) = (String::new(), String::new());
    let (mut length, mut closes) = (0, false);
    reader.read_line(&mut first).ok().filter(|size| *size > 0)?;
    loop {
        line.clear();
        reader.read_line(&mut line).ok().filter(|size| *size > 0)?;
        let lower = line.trim_end().to_ascii_lowercase();
        if lower.is_empty() {
            break;
        }
        if let Some(value) = lower.strip_prefix("content-length:") {
            length = value.trim().parse().ok()?;
        }
        closes |= lower == "connection: close";
    }
    let mut body = vec![0; length];
    reader.read_exact(&mut body).ok()?;
    Some(Message { first, closes, body: String::from_utf8(body).ok()? })
}

/// What stands between these two texts, or nothing.
fn between<'a>(text: &'a str, before: &str, after: &str) -> &'a str {
    let rest = text.split_once(before).map_or("", |parts| parts.1);
    rest.split_once(after).map_or("", |parts| parts.0)
}

/// A body as Vault writes it.
fn answer(request: &Message, moment: u64, terms: Terms) -> String {
    let Terms { left, granted } = terms;
    let (issued, issue_time, expire_time) = (moment - 1000, rfc3339(moment - 1000), rfc3339(moment + left));
    let lease = between(&request.body.replace(": ", ":"), "\"lease_id\":\"", "\"").to_string();
    let head = "\"request_id\":\"6de5e1b8-1d9a-2d5c-2e7c-5b1f0c6a8a1e\"";
    let tail = "\"wrap_info\":null,\"warnings\":null";
    if request.first.contains("/auth/token/lookup-self ") {
        return format!(
            "{{{head},\"lease_id\":\"\",\"renewable\":false,\"lease_duration\":0,\"data\":{{\"accessor\":\"a\",\"creation_time\":{issued},\
             \"creation_ttl\":{granted},\"display_name\":\"token\",\"entity_id\":\"\",\"expire_time\":\"{expire_time}\",\
             \"explicit_max_ttl\":0,\"id\":\"s\",\"issue_time\":\"{issue_time}\",\"meta\":null,\"num_uses\":0,\"orphan\":true,\
             \"path\":\"auth/token/create\",\"policies\":[\"default\"],\"renewable\":true,\"ttl\":{left},\"type\":\"service\"}},\
             {tail},\"auth\":null}}\n"
        );
    }
    if request.first.contains("/sys/leases/lookup ") {
        return format!(
            "{{{head},\"lease_id\":\"\",\"renewable\":false,\"lease_duration\":0,\"data\":{{\"expire_time\":\"{expire_time}\",\
             \"id\":\"{lease}\",\"issue_time\":\"{issue_time}\",\"last_renewal\":null,\"renewable\":true,\"ttl\":{left}}},\
             {tail},\"auth\":null}}\n"
        );
    }
    if request.first.contains("/auth/token/renew-self ") {
        return format!(
            "{{{head},\"lease_id\":\"\",\"renewable\":false,\"lease_duration\":0,\"data\":null,{tail},\"auth\":{{\"client_token\":\"s\",\
             \"accessor\":\"a\",\"policies\":[\"default\"],\"token_policies\":[\"default\"],\"metadata\":null,\"lease_duration\":{granted},\
             \"renewable\":true,\"entity_id\":\"\",\"token_type\":\"service\",\"orphan\":true,\"mfa_requirement\":null,\"num_uses\":0}}}}\n"
        );
    }
    format!(
        "{{{head},\"lease_id\":\"{lease}\",\"renewable\":true,\"lease_duration\":{granted},\"data\":null,{tail},\"auth\":null}}\n"
    )
}

/// What the broker saw of renewals.
#[derive(Default)]
struct Seen {
    count: usize,
    first: u128,
    last: u128,
    open: usize,
    most: usize,
}

/// How late a renewal is answered: every one, and each so-many-th one instead.
struct Delays {
    each: Duration,
    some: Vec<(usize, Duration)>,
}

impl Delays {
    fn read(words: &[String]) -> Option<Delays> {
        let (each, some) = words.split_first()?;
        let millis = |word: &str| word.parse().ok().map(Duration::from_millis);
        let pair = |word: &String| word.split_once(':').and_then(|(every, late)| Some((every.parse().ok()?, millis(late)?)));
        Some(Delays { each: millis(each)?, some: some.iter().map(pair).collect::<Option<_>>()? })
    }

    /// That of the renewal with this number; where several hold, the longest.
    fn of(&self, number: usize) -> Duration {
        let some = self.some.iter().filter(|(every, _)| *every > 0 && number % every == 0).map(|(_, late)| *late);
        some.max().unwrap_or(self.each)
    }
}

fn serve(stream: TcpStream, terms: Terms, delays: &Delays, seen: &Mutex<Seen>) -> Option<()> {
    stream.set_nodelay(true).ok()?;
    let mut writer = stream.try_clone().ok()?;
    let mut reader = BufReader::new(stream);
    while let Some(request) = read(&mut reader) {
        let is_renewal = request.first.contains("/renew");
        let mut delay = Duration::ZERO;
        if is_renewal {
            let mut seen = seen.lock().ok()?;
            seen.last = now();
            if seen.count == 0 {
                seen.first = seen.last;
            }
            seen.count += 1;
            seen.open += 1;
            seen.most = seen.most.max(seen.open);
            delay = delays.of(seen.count);
        }
        if !delay.is_zero() {
            std::thread::sleep(delay);
        }
        if is_renewal {
            seen.lock().ok()?.open -= 1;
        }
        let moment = (now() / 1_000_000_000) as u64;
        let body = answer(&request, moment, terms);
        let reply = format!(
            "HTTP/1.1 200 OK\r\nCache-Control: no-store\r\nContent-Type: application/json\r\nStrict-Transport-Security: max-age=31536000; \
             includeSubDomains\r\nDate: {}\r\nContent-Length: {}\r\n\r\n{body}",
            http_date(moment),
            body.len()
        );
        writer.write_all(reply.as_bytes()).ok()?;
        if request.closes {
            break;
        }
    }
    Some(())
}

fn broker(terms: Terms, delays: Delays) -> std::io::Result<()> {
    let delays = Arc::new(delays);
    let listener = TcpListener::bind("127.0.0.1:0")?;
    println!("{}", listener.local_addr()?.port());
    let seen = Arc::new(Mutex::new(Seen::default()));
    let theirs = seen.clone();
    std::thread::spawn(move || {
        for stream in listener.incoming().flatten() {
            let (delays, seen) = (delays.clone(), theirs.clone());
            std::thread::spawn(move || serve(stream, terms, &delays, &seen));
        }
    });
    std::io::stdin().read_to_end(&mut Vec::new())?;
    if let Ok(seen) = seen.lock() {
        println!("{} {} {} {}", seen.count, seen.first, seen.last, seen.most);
    }
    Ok(())
}

fn ask(port: u16, lines: &[String], next: &AtomicUsize, granted: &AtomicUsize) -> std::io::Result<()> {
    let stream = TcpStream::connect(("127.0.0.1", port))?;
    stream.set_nodelay(true)?;
    let mut writer = stream.try_clone()?;
    let mut reader = BufReader::new(stream);
    while let Some(line) = lines.get(next.fetch_add(1, Ordering::Relaxed)) {
        let parts: Vec<&str> = line.splitn(4, ' ').collect();
        let [method, path, token, body] = parts[..] else { continue };
        let request = format!(
            "{method} {path} HTTP/1.1\r\nHost: 127.0.0.1:{port}\r\nX-Vault-Request: true\r\nX-Vault-Token: {token}\r\n\
             Content-Type: application/json\r\nContent-Length: {}\r\n\r\n{body}",
            body.len()
        );
        writer.write_all(request.as_bytes())?;
        if let Some(reply) = read(&mut reader) {
            let told = between(&reply.body, "\"lease_duration\":3", ",");
            if reply.first.starts_with("HTTP/1.1 200 ") && told == "6000" {
                granted.fetch_add(1, Ordering::Relaxed);
            }
        }
    }
    Ok(())
}

fn client(port: u16, threads: usize, file: &str) -> std::io::Result<()> {
    let lines: Arc<Vec<String>> = Arc::new(std::fs::read_to_string(file)?.lines().map(String::from).collect());
    println!("ready");
    std::io::stdin().read_line(&mut String::new())?;
    let (next, granted) = (Arc::new(AtomicUsize::new(0)), Arc::new(AtomicUsize::new(0)));
    let works: Vec<_> = (0..threads)
        .map(|_| {
            let (lines, next, granted) = (lines.clone(), next.clone(), granted.clone());
            std::thread::spawn(move || ask(port, &lines, &next, &granted))
        })
        .collect();
    for work in works {
        let _ = work.join();
    }
    println!("{}", granted.load(Ordering::Relaxed));
    std::io::stdin().read_line(&mut String::new())?;
    Ok(())
}

fn main() -> std::io::Result<()> {
    let words: Vec<String> = std::env::args().skip(1).collect();
    let number = |at: usize| words.get(at).and_then(|word| word.parse().ok()).unwrap_or(0u64);
    let delays = words.get(3..).and_then(Delays::read);
    match (words.iter().map(String::as_str).collect::<Vec<_>>().as_slice(), delays) {
        (["broker", ..], Some(delays)) => broker(Terms { left: number(1), granted: number(2) }, delays),
        (["client", _, _, file], _) => client(number(1) as u16, number(2) as usize, file),
        _ => {
            eprintln!("usage: abreast broker LEFT GRANTED MILLISECONDS [EVERY:MILLISECONDS ..] | abreast client PORT K FILE");
            std::process::exit(2)
        }
    }
}
