// A plain Rust program of the shape of `http_times`, over the standard library alone: heads, routes, escapes and JSON
// are read by code of its own. Built by `rustc -O main.rs`.
use std::fmt::Write as _;
use std::hint::black_box;
use std::time::Instant;

const RUNS: u32 = 7;
const MANY: u64 = 100_000;
const FEW: u64 = 2_000;

#[derive(Debug)]
enum Value {
    Null,
    Bool(bool),
    Int(i64),
    Text(String),
    Array(Vec<Value>),
    Object(Vec<(String, Value)>),
}

#[derive(Debug, PartialEq, Eq)]
enum Fault {
    Bad,
    TooLarge,
    BodyTooLarge,
    NotFound,
    Method,
    Version,
    Length,
}

#[allow(dead_code)]
enum Scope {
    Subscription(String),
    Group(String, String),
    Resource(String),
}

enum Route {
    Groups(String),
    Group(String, String),
    Resources(String, String),
    Deployment(String, String, String),
    Resume(String, String, String),
    Abandon(String, String, String),
    Lock(Scope, String, String),
    Resource(String, String),
}

#[allow(dead_code)]
enum Ask {
    ListGroups(String),
    PutGroup(String, String, String),
    GetGroup(String, String),
    DeleteGroup(String, String),
    ListResources(String, String),
    Deploy(String, String, String, bool, Vec<u8>, Option<Value>),
    GetDeployment(String, String, String),
    Resume(String, String, String),
    Abandon(String, String, String),
    PutLock(Scope, String, String, bool, String),
    GetLock(Scope, String, String),
    DeleteLock(Scope, String, String),
    GetResource(String, String),
    DeleteResource(String, String),
}

#[allow(dead_code)]
struct Request {
    ask: Ask,
    close: bool,
}

// JSON.

struct Json<'a> {
    bytes: &'a [u8],
    at: usize,
}

impl Json<'_> {
    fn blank(&mut self) {
        while matches!(self.bytes.get(self.at), Some(b' ' | b'\t' | b'\r' | b'\n')) {
            self.at += 1;
        }
    }

    fn eat(&mut self, text: &[u8]) -> Option<()> {
        self.bytes[self.at..].starts_with(text).then(|| self.at += text.len())
    }

    fn value(&mut self, depth: u32) -> Option<Value> {
        if depth > 120 {
            return None;
        }
        self.blank();
        match self.bytes.get(self.at)? {
            b'n' => self.eat(b"null").map(|()| Value::Null),
            b't' => self.eat(b"true").map(|()| Value::Bool(true)),
            b'f' => self.eat(b"false").map(|()| Value::Bool(false)),
            b'"' => self.text().map(Value::Text),
            b'[' => self.array(depth),
            b'{' => self.object(depth),
            _ => self.number(),
        }
    }

    fn number(&mut self) -> Option<Value> {
        let start = self.at;
        if self.bytes.get(self.at) == Some(&b'-') {
            self.at += 1;
        }
        while matches!(self.bytes.get(self.at), Some(b'0'..=b'9')) {
            self.at += 1;
        }
        let text = std::str::from_utf8(&self.bytes[start..self.at]).ok()?;
        text.parse().ok().map(Value::Int)
    }

    fn text(&mut self) -> Option<String> {
        self.at += 1;
        let mut out = Vec::new();
        loop {
            let start = self.at;
            while !matches!(self.bytes.get(self.at)?, b'"' | b'\\' | 0..=31) {
                self.at += 1;
            }
            out.extend_from_slice(&self.bytes[start..self.at]);
            match self.bytes[self.at] {
                b'"' => {
                    self.at += 1;
                    return String::from_utf8(out).ok();
                }
                b'\\' => {
                    let escaped = match self.bytes.get(self.at + 1)? {
                        b'n' => b'\n',
                        b't' => b'\t',
                        b'r' => b'\r',
                        b'b' => 8,
                        b'f' => 12,
                        other @ (b'"' | b'\\' | b'/') => *other,
                        _ => return None,
                    };
                    out.push(escaped);
                    self.at += 2;
                }
                _ => return None,
            }
        }
    }

    fn array(&mut self, depth: u32) -> Option<Value> {
        self.at += 1;
        let mut items = Vec::new();
        self.blank();
        if self.eat(b"]").is_some() {
            return Some(Value::Array(items));
        }
        loop {
            items.push(self.value(depth + 1)?);
            self.blank();
            if self.eat(b"]").is_some() {
                return Some(Value::Array(items));
            }
            self.eat(b",")?;
        }
    }

    fn object(&mut self, depth: u32) -> Option<Value> {
        self.at += 1;
        let mut members: Vec<(String, Value)> = Vec::new();
        self.blank();
        if self.eat(b"}").is_some() {
            return Some(Value::Object(members));
        }
        loop {
            self.blank();
            if self.bytes.get(self.at) != Some(&b'"') {
                return None;
            }
            let name = self.text()?;
            self.blank();
            self.eat(b":")?;
            let value = self.value(depth + 1)?;
            match members.binary_search_by(|m| m.0.as_str().cmp(&name)) {
                Ok(at) => members[at].1 = value,
                Err(at) => members.insert(at, (name, value)),
            }
            self.blank();
            if self.eat(b"}").is_some() {
                return Some(Value::Object(members));
            }
            self.eat(b",")?;
        }
    }
}

fn read_json(bytes: &[u8]) -> Option<Value> {
    let mut json = Json { bytes, at: 0 };
    let value = json.value(0)?;
    json.blank();
    (json.at == bytes.len()).then_some(value)
}

fn print_text(text: &str, out: &mut Vec<u8>) {
    out.push(b'"');
    for byte in text.bytes() {
        match byte {
            b'"' => out.extend_from_slice(b"\\\""),
            b'\\' => out.extend_from_slice(b"\\\\"),
            b'\n' => out.extend_from_slice(b"\\n"),
            b'\r' => out.extend_from_slice(b"\\r"),
            b'\t' => out.extend_from_slice(b"\\t"),
            0..=31 => out.extend_from_slice(format!("\\u{byte:04x}").as_bytes()),
            _ => out.push(byte),
        }
    }
    out.push(b'"');
}

fn print_json(value: &Value, out: &mut Vec<u8>) {
    match value {
        Value::Null => out.extend_from_slice(b"null"),
        Value::Bool(true) => out.extend_from_slice(b"true"),
        Value::Bool(false) => out.extend_from_slice(b"false"),
        Value::Int(number) => out.extend_from_slice(number.to_string().as_bytes()),
        Value::Text(text) => print_text(text, out),
        Value::Array(items) => {
            out.push(b'[');
            for (number, item) in items.iter().enumerate() {
                if number > 0 {
                    out.push(b',');
                }
                print_json(item, out);
            }
            out.push(b']');
        }
        Value::Object(members) => {
            out.push(b'{');
            for (number, (name, member)) in members.iter().enumerate() {
                if number > 0 {
                    out.push(b',');
                }
                print_text(name, out);
                out.push(b':');
                print_json(member, out);
            }
            out.push(b'}');
        }
    }
}

fn member<'v>(value: &'v Value, name: &str) -> Option<&'v Value> {
    let Value::Object(members) = value else {
        return None;
    };
    if let Ok(at) = members.binary_search_by(|m| m.0.as_str().cmp(name)) {
        return Some(&members[at].1);
    }
    members.iter().find(|m| m.0.eq_ignore_ascii_case(name)).map(|m| &m.1)
}

fn text_of(value: Option<&Value>) -> Option<String> {
    match value {
        Some(Value::Text(text)) => Some(text.clone()),
        _ => None,
    }
}

// Heads.

struct Head<'b> {
    method: &'b [u8],
    target: &'b [u8],
    length: usize,
    fields: usize,
    coded: bool,
    close: bool,
    body: Option<usize>,
}

fn is_token(byte: u8) -> bool {
    byte.is_ascii_alphanumeric() || b"!#$%&'*+-.^_`|~".contains(&byte)
}

fn trimmed(mut bytes: &[u8]) -> &[u8] {
    while let [b' ' | b'\t', rest @ ..] = bytes {
        bytes = rest;
    }
    while let [rest @ .., b' ' | b'\t'] = bytes {
        bytes = rest;
    }
    bytes
}

// The next line and where it ends; none where it has not ended.
fn line(bytes: &[u8], at: usize) -> Option<(&[u8], usize)> {
    let end = at + bytes[at..].iter().position(|byte| *byte == b'\n')?;
    let line = &bytes[at..end];
    Some((line.strip_suffix(b"\r").unwrap_or(line), end + 1))
}

fn field(line: &[u8], head: &mut Head) -> Result<(), Fault> {
    let colon = line.iter().position(|byte| *byte == b':').ok_or(Fault::Bad)?;
    let (name, value) = (&line[..colon], trimmed(&line[colon + 1..]));
    if name.is_empty() || !name.iter().all(|byte| is_token(*byte)) {
        return Err(Fault::Bad);
    }
    if value.iter().any(|byte| (*byte < 32 && *byte != b'\t') || *byte == 127) {
        return Err(Fault::Bad);
    }
    head.fields += 1;
    if name.eq_ignore_ascii_case(b"content-length") {
        let text = std::str::from_utf8(value).map_err(|_| Fault::Bad)?;
        let count = text.parse().map_err(|_| Fault::Bad)?;
        if head.body.is_some_and(|other| other != count) {
            return Err(Fault::Bad);
        }
        head.body = Some(count);
    } else if name.eq_ignore_ascii_case(b"transfer-encoding") {
        head.coded = true;
    } else if name.eq_ignore_ascii_case(b"connection") && value.eq_ignore_ascii_case(b"close") {
        head.close = true;
    }
    Ok(())
}

// The head at the front of the bytes; none where it has not ended.
fn head(bytes: &[u8]) -> Result<Option<Head<'_>>, Fault> {
    let mut at = 0;
    while bytes[at..].starts_with(b"\r\n") {
        at += 2;
    }
    let Some((start, mut at)) = line(bytes, at) else {
        return Ok(None);
    };
    let mut words = start.split(|byte| *byte == b' ');
    let (Some(method), Some(target), Some(version), None) =
        (words.next(), words.next(), words.next(), words.next())
    else {
        return Err(Fault::Bad);
    };
    if method.is_empty() || !method.iter().all(|byte| is_token(*byte)) || target.is_empty() {
        return Err(Fault::Bad);
    }
    if target.iter().any(|byte| *byte < 33 || *byte == 127) {
        return Err(Fault::Bad);
    }
    let close = match version {
        b"HTTP/1.1" => false,
        b"HTTP/1.0" => true,
        _ => return Err(Fault::Bad),
    };
    let (length, fields, coded, body) = (0, 0, false, None);
    let mut head = Head { method, target, length, fields, coded, close, body };
    loop {
        let Some((line, next)) = line(bytes, at) else {
            return Ok(None);
        };
        at = next;
        if line.is_empty() {
            head.length = at;
            return Ok(Some(head));
        }
        field(line, &mut head)?;
    }
}

// Routes.

fn decoded(sent: &str) -> Option<String> {
    let bytes = sent.as_bytes();
    let mut out = Vec::with_capacity(bytes.len());
    let mut at = 0;
    while at < bytes.len() {
        let digits = bytes.get(at + 1..at + 3).and_then(|d| std::str::from_utf8(d).ok());
        match digits.and_then(|d| u8::from_str_radix(d, 16).ok()) {
            Some(byte) if bytes[at] == b'%' => {
                out.push(byte);
                at += 3;
            }
            _ => {
                out.push(bytes[at]);
                at += 1;
            }
        }
    }
    if out.is_empty() || out.contains(&b'/') {
        return None;
    }
    String::from_utf8(out).ok()
}

fn is_path(path: &str) -> bool {
    let mut parts = path.split('/').skip(1);
    if parts.next() != Some("subscriptions") || parts.next().is_none_or(str::is_empty) {
        return false;
    }
    match parts.next() {
        Some("providers") => parts.next().is_some_and(|part| !part.is_empty()),
        Some("resourcegroups") => match (parts.next(), parts.next()) {
            (None, _) => true,
            (Some(""), _) => false,
            (Some(_), None) => true,
            (Some(_), Some("resources")) => parts.next().is_none(),
            (Some(_), Some("providers")) => parts.next().is_some_and(|part| !part.is_empty()),
            _ => false,
        },
        _ => false,
    }
}

struct Segment<'p> {
    sent: &'p str,
    name: String,
}

fn is_word(word: &str, segment: &Segment) -> bool {
    segment.sent.eq_ignore_ascii_case(word)
}

fn id_of(segments: &[Segment]) -> String {
    let mut id = String::new();
    for segment in segments {
        id.push('/');
        id.push_str(&segment.name);
    }
    id
}

fn scope_of(segments: &[Segment]) -> Option<Scope> {
    match segments {
        [_, s] => Some(Scope::Subscription(s.name.clone())),
        [_, s, groups, g] if is_word("resourceGroups", groups) => {
            Some(Scope::Group(s.name.clone(), g.name.clone()))
        }
        [_, _, _, _, _, _, rest @ ..] if rest.len() >= 2 && rest.len() % 2 == 0 => {
            Some(Scope::Resource(id_of(segments).to_lowercase()))
        }
        _ => None,
    }
}

fn deployment(segments: &[Segment]) -> Option<Route> {
    let [_, s, _, g, _, provider, kind, name, more @ ..] = segments else {
        return None;
    };
    if !is_word("Microsoft.Resources", provider) || !is_word("deployments", kind) {
        return None;
    }
    let (s, g, d) = (s.name.clone(), g.name.clone(), name.name.clone());
    match more {
        [] => Some(Route::Deployment(s, g, d)),
        [word] if is_word("resume", word) => Some(Route::Resume(s, g, d)),
        [word] if is_word("abandon", word) => Some(Route::Abandon(s, g, d)),
        _ => None,
    }
}

fn lock(segments: &[Segment]) -> Option<Route> {
    let front = segments.len().checked_sub(4)?;
    let (front, [providers, provider, kind, name]) = segments.split_at(front) else {
        return None;
    };
    if !is_word("providers", providers)
        || !is_word("Microsoft.Authorization", provider)
        || !is_word("locks", kind)
    {
        return None;
    }
    Some(Route::Lock(scope_of(front)?, id_of(front), name.name.clone()))
}

fn resource(segments: &[Segment]) -> Option<Route> {
    match scope_of(segments)? {
        Scope::Resource(key) => Some(Route::Resource(key, id_of(segments))),
        _ => None,
    }
}

fn route(path: &str) -> Result<Route, Fault> {
    if !is_path(&path.to_ascii_lowercase()) {
        return Err(Fault::NotFound);
    }
    let mut segments = Vec::new();
    for sent in path.split('/').skip(1) {
        let name = decoded(sent).ok_or(Fault::Bad)?;
        segments.push(Segment { sent, name });
    }
    let found = match segments.as_slice() {
        [_, s, _] => Some(Route::Groups(s.name.clone())),
        [_, s, _, g] => Some(Route::Group(s.name.clone(), g.name.clone())),
        [_, s, _, g, word] if is_word("resources", word) => {
            Some(Route::Resources(s.name.clone(), g.name.clone()))
        }
        segments => deployment(segments).or_else(|| lock(segments)).or_else(|| resource(segments)),
    };
    found.ok_or(Fault::NotFound)
}

fn has_version(query: &str) -> bool {
    query.split('&').any(|piece| piece.len() > 12 && piece.starts_with("api-version="))
}

// Requests.

fn deploy(at: (String, String, String), body: &[u8]) -> Result<Ask, Fault> {
    let value = read_json(body).ok_or(Fault::Bad)?;
    let properties = member(&value, "properties").ok_or(Fault::Bad)?;
    let complete = match member(properties, "mode") {
        None => false,
        Some(Value::Text(mode)) if mode.eq_ignore_ascii_case("Complete") => true,
        Some(Value::Text(mode)) if mode.eq_ignore_ascii_case("Incremental") => false,
        Some(_) => return Err(Fault::Bad),
    };
    let mut template = Vec::new();
    print_json(member(properties, "template").ok_or(Fault::Bad)?, &mut template);
    let parameters = member(properties, "parameters").map(copy);
    Ok(Ask::Deploy(at.0, at.1, at.2, complete, template, parameters))
}

fn copy(value: &Value) -> Value {
    match value {
        Value::Null => Value::Null,
        Value::Bool(b) => Value::Bool(*b),
        Value::Int(n) => Value::Int(*n),
        Value::Text(text) => Value::Text(text.clone()),
        Value::Array(items) => Value::Array(items.iter().map(copy).collect()),
        Value::Object(all) => Value::Object(all.iter().map(|m| (m.0.clone(), copy(&m.1))).collect()),
    }
}

fn put_lock(scope: Scope, id: String, name: String, body: &[u8]) -> Result<Ask, Fault> {
    let value = read_json(body).ok_or(Fault::Bad)?;
    let properties = member(&value, "properties").ok_or(Fault::Bad)?;
    let level = text_of(member(properties, "level")).ok_or(Fault::Bad)?;
    let notes = match member(properties, "notes") {
        None => String::new(),
        Some(notes) => text_of(Some(notes)).ok_or(Fault::Bad)?,
    };
    let read_only = level.eq_ignore_ascii_case("ReadOnly");
    if !read_only && !level.eq_ignore_ascii_case("CanNotDelete") {
        return Err(Fault::Bad);
    }
    Ok(Ask::PutLock(scope, id, name, read_only, notes))
}

fn put_group(s: String, g: String, body: &[u8]) -> Result<Ask, Fault> {
    let value = read_json(body).ok_or(Fault::Bad)?;
    let location = text_of(member(&value, "location")).ok_or(Fault::Bad)?;
    Ok(Ask::PutGroup(s, g, location))
}

fn asks(route: &Route, method: &[u8]) -> bool {
    match route {
        Route::Groups(..) | Route::Resources(..) => method == b"GET",
        Route::Group(..) | Route::Lock(..) => matches!(method, b"GET" | b"PUT" | b"DELETE"),
        Route::Deployment(..) => matches!(method, b"GET" | b"PUT"),
        Route::Resume(..) | Route::Abandon(..) => method == b"POST",
        Route::Resource(..) => matches!(method, b"GET" | b"DELETE"),
    }
}

fn ask(route: Route, method: &[u8], body: &[u8]) -> Result<Ask, Fault> {
    match (route, method) {
        (Route::Groups(s), _) => Ok(Ask::ListGroups(s)),
        (Route::Group(s, g), b"PUT") => put_group(s, g, body),
        (Route::Group(s, g), b"GET") => Ok(Ask::GetGroup(s, g)),
        (Route::Group(s, g), _) => Ok(Ask::DeleteGroup(s, g)),
        (Route::Resources(s, g), _) => Ok(Ask::ListResources(s, g)),
        (Route::Deployment(s, g, d), b"PUT") => deploy((s, g, d), body),
        (Route::Deployment(s, g, d), _) => Ok(Ask::GetDeployment(s, g, d)),
        (Route::Resume(s, g, d), _) => Ok(Ask::Resume(s, g, d)),
        (Route::Abandon(s, g, d), _) => Ok(Ask::Abandon(s, g, d)),
        (Route::Lock(scope, id, name), b"PUT") => put_lock(scope, id, name, body),
        (Route::Lock(scope, id, name), b"GET") => Ok(Ask::GetLock(scope, id, name)),
        (Route::Lock(scope, id, name), _) => Ok(Ask::DeleteLock(scope, id, name)),
        (Route::Resource(key, id), b"GET") => Ok(Ask::GetResource(key, id)),
        (Route::Resource(key, id), _) => Ok(Ask::DeleteResource(key, id)),
    }
}

struct Source {
    bytes: Vec<u8>,
    taken: usize,
}

impl Source {
    fn read(&mut self, buffer: &mut [u8]) -> usize {
        let rest = &self.bytes[self.taken..];
        let count = buffer.len().min(rest.len());
        buffer[..count].copy_from_slice(&rest[..count]);
        self.taken += count;
        count
    }
}

fn take_more(source: &mut Source, rest: &mut Vec<u8>, most: usize) -> usize {
    let mut piece = [0u8; 4_096];
    let room = most.min(piece.len());
    let count = source.read(&mut piece[..room]);
    rest.extend_from_slice(&piece[..count]);
    count
}

// The route that is asked by a method, and how many bytes its body has.
fn plan(head: &Head) -> Result<(Route, usize), Fault> {
    if head.fields > 64 {
        return Err(Fault::TooLarge);
    }
    let body = match head.body {
        _ if head.coded => return Err(Fault::Length),
        None if matches!(head.method, b"PUT" | b"POST") => return Err(Fault::Length),
        None => 0,
        Some(count) if count > 4_194_304 => return Err(Fault::BodyTooLarge),
        Some(count) => count,
    };
    let target = std::str::from_utf8(head.target).map_err(|_| Fault::Bad)?;
    let (path, query) = target.split_once('?').unwrap_or((target, ""));
    let route = route(path)?;
    if !asks(&route, head.method) {
        return Err(Fault::Method);
    }
    if !has_version(query) {
        return Err(Fault::Version);
    }
    Ok((route, body))
}

fn read_request(source: &mut Source, rest: &mut Vec<u8>) -> Result<Option<Request>, Fault> {
    loop {
        let window = &rest[..rest.len().min(16_384)];
        if let Some(head) = head(window)? {
            let (length, close) = (head.length, head.close);
            let method = head.method.to_vec();
            let (route, body) = plan(&head)?;
            let end = length + body;
            while rest.len() < end {
                let missing = end - rest.len();
                if take_more(source, rest, missing) == 0 {
                    return Err(Fault::Bad);
                }
            }
            let ask = ask(route, &method, &rest[length..end])?;
            rest.drain(..end);
            return Ok(Some(Request { ask, close }));
        }
        if rest.len() >= 16_384 {
            return Err(Fault::TooLarge);
        }
        let room = 16_384 - rest.len();
        if take_more(source, rest, room) == 0 {
            return if rest.is_empty() { Ok(None) } else { Err(Fault::Bad) };
        }
    }
}

// Replies.

fn write_reply(sink: &mut Vec<u8>, status: u16, phrase: &str, body: &Value, close: bool) {
    let mut json = Vec::new();
    print_json(body, &mut json);
    let connection = if close { "connection: close\r\n" } else { "" };
    let mut head = String::new();
    write!(
        head,
        "HTTP/1.1 {status} {phrase}\r\ncontent-type: application/json\r\ncontent-length: {}\r\n{connection}\r\n",
        json.len()
    )
    .unwrap();
    let mut bytes = head.into_bytes();
    bytes.extend_from_slice(&json);
    sink.extend_from_slice(&bytes);
}

// What is timed.

const MIX: [(&str, &str); 5] = [
    ("GET /subscriptions/s/resourceGroups", ""),
    ("PUT /subscriptions/s/resourceGroups/g", "{\"location\":\"westeurope\"}"),
    ("GET /subscriptions/s/resourceGroups/g/providers/Demo.Lab/things/t%2Da", ""),
    (
        "PUT /subscriptions/s/resourceGroups/g/providers/Microsoft.Authorization/locks/k",
        "{\"properties\":{\"level\":\"ReadOnly\",\"notes\":\"n\"}}",
    ),
    (
        "POST /subscriptions/s/resourceGroups/g/providers/Microsoft.Resources/deployments/d/resume",
        "",
    ),
];

const FIELDS: &str = "\
?api-version=2021-04-01 HTTP/1.1\r\n\
Host: 127.0.0.1:8080\r\n\
User-Agent: azsdk-python-azure-mgmt-resource/23.0.1 Python/3.11.4 (Linux-6.2.0-x86_64)\r\n\
Accept-Encoding: gzip, deflate\r\n\
Accept: application/json\r\n\
Connection: keep-alive\r\n\
Content-Type: application/json\r\n\
x-ms-client-request-id: 8a6f0c9e-2c0a-11ee-be56-0242ac120002\r\n";

const RESOURCE: &str = "\
{\"type\":\"Demo.Lab/things\",\"apiVersion\":\"2024-01-01\",\"name\":\"thing\",\"location\":\"west\",\
\"tags\":{\"a\":\"1\",\"b\":\"2\"},\"properties\":{\"size\":17,\"on\":true,\"parts\":[\"x\",\"y\"]}}";

fn add(bytes: &mut String, start: &str, body: &str) {
    bytes.push_str(start);
    bytes.push_str(FIELDS);
    write!(bytes, "Content-Length: {}\r\n\r\n{body}", body.len()).unwrap();
}

fn mix() -> String {
    let mut bytes = String::new();
    for (start, body) in MIX {
        add(&mut bytes, start, body);
    }
    bytes
}

fn listed() -> String {
    format!("{{\"resources\":[{}]}}", [RESOURCE; 64].join(","))
}

fn one_deployment() -> String {
    let mut bytes = String::new();
    add(
        &mut bytes,
        "PUT /subscriptions/s/resourceGroups/g/providers/Microsoft.Resources/deployments/d",
        &format!("{{\"properties\":{{\"template\":{}}}}}", listed()),
    );
    bytes
}

fn read_micros(bytes: &str, each: u64, count: u64) -> u128 {
    let mut source = Source { bytes: bytes.repeat((count / each) as usize).into_bytes(), taken: 0 };
    let mut rest = Vec::new();
    let start = Instant::now();
    for _ in 0..count {
        assert!(matches!(black_box(read_request(&mut source, &mut rest)), Ok(Some(_))));
    }
    let micros = start.elapsed().as_micros();
    assert!(matches!(read_request(&mut source, &mut rest), Ok(None)));
    micros
}

fn write_micros(status: u16, phrase: &str, json: &str, count: u64) -> u128 {
    let body = read_json(json.as_bytes()).unwrap();
    let mut sink = Vec::with_capacity(64_000_000);
    let start = Instant::now();
    for _ in 0..count {
        write_reply(black_box(&mut sink), status, phrase, &body, false);
    }
    start.elapsed().as_micros()
}

fn measure(words: &str, count: u64, run: impl Fn() -> u128) {
    let micros = (0..RUNS).map(|_| run()).min().unwrap();
    println!("{words}: {count} in {micros} us, {} a second", count as u128 * 1_000_000 / micros.max(1));
}

fn main() {
    let refusal = "{\"error\":{\"code\":\"ResourceGroupNotFound\",\"message\":\"g\"}}";
    measure("read, a mix of 5", MANY, || read_micros(&mix(), 5, MANY));
    measure("read, 64 resources to deploy", FEW, || read_micros(&one_deployment(), 1, FEW));
    measure("write, a refusal", MANY, || write_micros(404, "Not Found", refusal, MANY));
    measure("write, 64 resources", FEW, || write_micros(200, "OK", &listed(), FEW));
}
