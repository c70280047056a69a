//! The four texts of a renewal, with httparse and serde_json, so many times: `texts token|lease TIMES`.
//! A request is written and read, and so is its reply, each with the JSON of its body.

use std::hint::black_box;

use serde_json::{json, Value};

struct Request {
    method: String,
    path: String,
    token: Option<String>,
    body: Vec<u8>,
}

struct Reply {
    status: u16,
    body: Vec<u8>,
}

fn request_text(request: &Request) -> Vec<u8> {
    let mut text = Vec::new();
    text.extend_from_slice(
        format!("{} {} HTTP/1.1\r\nHost: 127.0.0.1:8200\r\nContent-Length: {}\r\n", request.method, request.path, request.body.len()).as_bytes(),
    );
    if let Some(token) = &request.token {
        text.extend_from_slice(format!("X-Vault-Token: {token}\r\n").as_bytes());
    }
    text.extend_from_slice(b"Connection: close\r\n\r\n");
    text.extend_from_slice(&request.body);
    text
}

fn reply_text(reply: &Reply) -> Vec<u8> {
    let mut text = format!(
        "HTTP/1.1 {} OK\r\nContent-Type: application/json\r\nContent-Length: {}\r\nConnection: close\r\n\r\n",
        reply.status,
        reply.body.len()
    )
    .into_bytes();
    text.extend_from_slice(&reply.body);
    text
}

fn length_of(headers: &[httparse::Header]) -> Option<usize> {
    let field = headers.iter().find(|field| field.name.eq_ignore_ascii_case("content-length"))?;
    std::str::from_utf8(field.value).ok()?.parse().ok()
}

fn read_request(text: &[u8]) -> Option<Request> {
    let mut room = [httparse::EMPTY_HEADER; 64];
    let mut head = httparse::Request::new(&mut room);
    let httparse::Status::Complete(at) = head.parse(text).ok()? else {
        return None;
    };
    let length = length_of(head.headers)?;
    let token = head.headers.iter().find(|field| field.name.eq_ignore_ascii_case("x-vault-token"));
    let token = token.and_then(|field| String::from_utf8(field.value.to_vec()).ok());
    Some(Request { method: head.method?.to_owned(), path: head.path?.to_owned(), token, body: text.get(at..at + length)?.to_vec() })
}

fn read_reply(text: &[u8]) -> Option<Reply> {
    let mut room = [httparse::EMPTY_HEADER; 64];
    let mut head = httparse::Response::new(&mut room);
    let httparse::Status::Complete(at) = head.parse(text).ok()? else {
        return None;
    };
    let length = length_of(head.headers)?;
    Some(Reply { status: head.code?, body: text.get(at..at + length)?.to_vec() })
}

fn once(case: &str) -> Option<(u64, bool)> {
    let is_token = case == "token";
    let (path, body) = if is_token {
        ("/v1/auth/token/renew-self", json!({"increment": 3600}))
    } else {
        ("/v1/sys/leases/renew", json!({"increment": 3600, "lease_id": "service-0001/db"}))
    };
    let request = Request {
        method: "POST".to_owned(),
        path: path.to_owned(),
        token: Some("service-0001".to_owned()),
        body: serde_json::to_vec(&body).ok()?,
    };
    let text = black_box(request_text(&request));
    let heard = read_request(&text)?;
    let asked: Value = serde_json::from_slice(&heard.body).ok()?;
    let increment = asked.get("increment")?.as_u64()?;
    let answer = if is_token {
        json!({"auth": {"lease_duration": increment, "renewable": true}})
    } else {
        json!({"lease_duration": increment, "lease_id": asked.get("lease_id")?.as_str()?, "renewable": true})
    };
    let reply = Reply { status: 200, body: serde_json::to_vec(&answer).ok()? };
    let text = black_box(reply_text(&reply));
    let told = read_reply(&text)?;
    let told: Value = serde_json::from_slice(&told.body).ok()?;
    let told = if is_token { told.get("auth")? } else { &told };
    Some((told.get("lease_duration")?.as_u64()?, told.get("renewable")?.as_bool()?))
}

fn main() {
    let words: Vec<String> = std::env::args().collect();
    let times: u64 = words[2].parse().unwrap();
    let mut passed = 0;
    for _ in 0..times {
        if black_box(once(black_box(&words[1]))).is_some() {
            passed += 1;
        }
    }
    println!("{passed}");
}
