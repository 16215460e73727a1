//! The part of HTTP/1.1 that the table speaks: one request a connection, with a bound for everything, and its reply.

use std::fmt::Write;

/// The request line and the headers, in bytes, with the empty line behind them.
pub const HEAD: usize = 8192;
/// One line of them.
pub const LINE: usize = 2048;
/// How many headers there may be.
pub const HEADERS: usize = 64;
/// The request's target: its path and its query.
pub const TARGET: usize = 256;
/// The body.
pub const BODY: usize = 256;
/// How many fields a query or a body may have.
pub const FIELDS: usize = 8;

/// What a reply says of itself.
#[derive(Clone, Copy, Debug, PartialEq, Eq)]
pub enum Status {
    Ok = 200,
    BadRequest = 400,
    Forbidden = 403,
    NotFound = 404,
    BadMethod = 405,
    TooSlow = 408,
    Conflict = 409,
    Gone = 410,
    LargeBody = 413,
    LongTarget = 414,
    LargeHead = 431,
    BadCoding = 501,
    Busy = 503,
    BadVersion = 505,
}

impl Status {
    const fn words(self) -> &'static str {
        match self {
            Self::Ok => "OK",
            Self::BadRequest => "Bad Request",
            Self::Forbidden => "Forbidden",
            Self::NotFound => "Not Found",
            Self::BadMethod => "Method Not Allowed",
            Self::TooSlow => "Request Timeout",
            Self::Conflict => "Conflict",
            Self::Gone => "Gone",
            Self::LargeBody => "Content Too Large",
            Self::LongTarget => "URI Too Long",
            Self::LargeHead => "Request Header Fields Too Large",
            Self::BadCoding => "Not Implemented",
            Self::Busy => "Service Unavailable",
            Self::BadVersion => "HTTP Version Not Supported",
        }
    }
}

#[derive(Clone, Copy, Debug, PartialEq, Eq)]
pub enum Method {
    Get,
    Post,
}

/// A whole request.
#[derive(Clone, Debug, PartialEq, Eq)]
pub struct Request {
    pub method: Method,
    /// The target up to a question mark.
    pub path: String,
    /// Of a GET what its query says, of a POST what its body says.
    fields: Vec<(String, String)>,
    pub host: String,
    pub origin: Option<String>,
}

impl Request {
    /// A field by its name, if it is there.
    pub fn field(&self, name: &str) -> Option<&str> {
        let mut fields = self.fields.iter();
        let (_, value) = fields.find(|(key, _)| key == name)?;
        Some(value)
    }

    /// A field that is a number, if it is there and is one.
    pub fn number(&self, name: &str) -> Option<u32> {
        self.field(name)?.parse().ok()
    }

    /// A field of `N` bytes, each as two digits of base 16.
    pub fn bytes<const N: usize>(&self, name: &str) -> Option<[u8; N]> {
        let pairs = self.field(name)?.as_bytes().chunks(2);
        let mut bytes = [0; N];
        if pairs.len() != N {
            return None;
        }
        for (byte, pair) in bytes.iter_mut().zip(pairs) {
            let &[high, low] = pair else { return None };
            let digit = |byte: u8| char::from(byte).to_digit(16);
            *byte = u8::try_from(16 * digit(high)? + digit(low)?).ok()?;
        }
        Some(bytes)
    }
}

/// The request that some bytes are: none while they are only the front of one, and a status where nothing behind them could mend it.
pub fn parse(bytes: &[u8]) -> Result<Option<Request>, Status> {
    let within = bytes.get(..HEAD).unwrap_or(bytes);
    let Some(end) = within.windows(4).position(|four| four == b"\r\n\r\n") else {
        return if bytes.len() < HEAD {
            Ok(None)
        } else {
            Err(Status::LargeHead)
        };
    };
    let (head, rest) = (
        bytes.get(..end).unwrap_or_default(),
        bytes.get(end + 4..).unwrap_or_default(),
    );
    let (request, length) = parse_head(head)?;
    match rest.len() {
        here if here < length => Ok(None),
        here if here > length => Err(Status::BadRequest),
        _ => Ok(Some(with_body(request, rest)?)),
    }
}

/// The request of a head, and how long its body is.
fn parse_head(head: &[u8]) -> Result<(Request, usize), Status> {
    let text = std::str::from_utf8(head).map_err(|_| Status::BadRequest)?;
    let mut lines = text.split("\r\n");
    let (method, target) = parse_first(lines.next().unwrap_or_default())?;
    let headers = Headers::parse(lines)?;
    let (path, query) = target.split_once('?').unwrap_or((target, ""));
    let request = Request {
        method,
        path: path.to_owned(),
        fields: parse_fields(query)?,
        host: headers.host.ok_or(Status::BadRequest)?.to_owned(),
        origin: headers.origin.map(str::to_owned),
    };
    Ok((request, headers.length.unwrap_or(0)))
}

/// The request line: its method and its target.
fn parse_first(line: &str) -> Result<(Method, &str), Status> {
    let mut words = line.split(' ');
    let (Some(method), Some(target), Some(version), None) =
        (words.next(), words.next(), words.next(), words.next())
    else {
        return Err(if line.len() > LINE {
            Status::LongTarget
        } else {
            Status::BadRequest
        });
    };
    if target.len() > TARGET {
        return Err(Status::LongTarget);
    }
    if !target.starts_with('/') || !target.bytes().all(|byte| byte.is_ascii_graphic()) {
        return Err(Status::BadRequest);
    }
    if !matches!(version, "HTTP/1.1" | "HTTP/1.0") {
        return Err(Status::BadVersion);
    }
    match method {
        "GET" => Ok((Method::Get, target)),
        "POST" => Ok((Method::Post, target)),
        _ => Err(Status::BadMethod),
    }
}

/// The headers that matter here.
#[derive(Default)]
struct Headers<'a> {
    host: Option<&'a str>,
    origin: Option<&'a str>,
    length: Option<usize>,
}

impl<'a> Headers<'a> {
    fn parse(lines: impl Iterator<Item = &'a str>) -> Result<Self, Status> {
        let mut headers = Self::default();
        for (place, line) in lines.enumerate() {
            if place >= HEADERS || line.len() > LINE {
                return Err(Status::LargeHead);
            }
            let (name, value) = line.split_once(':').ok_or(Status::BadRequest)?;
            let token =
                |byte: u8| byte.is_ascii_alphanumeric() || b"!#$%&'*+-.^_`|~".contains(&byte);
            if name.is_empty()
                || !name.bytes().all(token)
                || value
                    .bytes()
                    .any(|byte| byte.is_ascii_control() && byte != b'\t')
            {
                return Err(Status::BadRequest);
            }
            headers.keep(&name.to_ascii_lowercase(), value.trim())?;
        }
        Ok(headers)
    }

    /// Keeps a header that matters; one that comes twice could be read in two ways, and is refused.
    fn keep(&mut self, name: &str, value: &'a str) -> Result<(), Status> {
        let before = match name {
            "host" => self.host.replace(value).is_some(),
            "origin" => self.origin.replace(value).is_some(),
            "content-length" => self.length.replace(parse_length(value)?).is_some(),
            "transfer-encoding" => return Err(Status::BadCoding),
            _ => false,
        };
        if before {
            Err(Status::BadRequest)
        } else {
            Ok(())
        }
    }
}

/// Digits alone: no sign, no list.
fn parse_length(value: &str) -> Result<usize, Status> {
    if value.is_empty() || !value.bytes().all(|byte| byte.is_ascii_digit()) {
        return Err(Status::BadRequest);
    }
    let length = value.parse().map_err(|_| Status::LargeBody)?;
    if length > BODY {
        Err(Status::LargeBody)
    } else {
        Ok(length)
    }
}

/// `a=1&b=2`: small letters, then letters, digits and dashes. Nothing is written in another way, so nothing has to be undone.
fn parse_fields(text: &str) -> Result<Vec<(String, String)>, Status> {
    let mut fields = Vec::new();
    for part in text.split('&').filter(|part| !part.is_empty()) {
        let (name, value) = part.split_once('=').ok_or(Status::BadRequest)?;
        let sound = name.bytes().all(|byte| byte.is_ascii_lowercase())
            && value
                .bytes()
                .all(|byte| byte.is_ascii_alphanumeric() || byte == b'-');
        let twice = fields.iter().any(|(key, _)| key == name);
        if !sound || twice || fields.len() == FIELDS {
            return Err(Status::BadRequest);
        }
        fields.push((name.to_owned(), value.to_owned()));
    }
    Ok(fields)
}

/// A POST says in its body what a GET says in its query; neither says anything in the other's place.
fn with_body(mut request: Request, body: &[u8]) -> Result<Request, Status> {
    match request.method {
        Method::Get if body.is_empty() => {}
        Method::Post if request.fields.is_empty() => {
            let text = std::str::from_utf8(body).map_err(|_| Status::BadRequest)?;
            request.fields = parse_fields(text)?;
        }
        Method::Get | Method::Post => return Err(Status::BadRequest),
    }
    Ok(request)
}

/// A reply that ends with its body.
#[derive(Clone, Debug, PartialEq, Eq)]
pub struct Reply {
    pub status: Status,
    pub kind: &'static str,
    /// What the browser is to store it as, where it is to store it.
    pub file: Option<&'static str>,
    pub body: Vec<u8>,
}

pub const TEXT: &str = "text/plain; charset=utf-8";
pub const JSON: &str = "application/json";

impl Reply {
    pub fn new(status: Status, kind: &'static str, body: impl Into<Vec<u8>>) -> Self {
        let body = body.into();
        Self {
            status,
            kind,
            file: None,
            body,
        }
    }

    /// The status in words alone.
    pub fn bare(status: Status) -> Self {
        Self::new(status, TEXT, format!("{}\n", status.words()))
    }

    pub fn to_bytes(&self) -> Vec<u8> {
        let mut head = front(self.status, self.kind);
        // Writing into a text does not fail.
        let _ = write!(head, "Content-Length: {}\r\n", self.body.len());
        if let Some(file) = self.file {
            let _ = write!(
                head,
                "Content-Disposition: attachment; filename=\"{file}\"\r\n"
            );
        }
        head.push_str("\r\n");
        let mut bytes = head.into_bytes();
        bytes.extend_from_slice(&self.body);
        bytes
    }
}

/// The front of a stream of events, whose end is the connection's.
pub fn stream_front() -> Vec<u8> {
    (front(Status::Ok, "text/event-stream") + "\r\n").into_bytes()
}

/// What every reply begins with. The page gets nothing from anywhere else, and nobody else may frame it.
fn front(status: Status, kind: &str) -> String {
    format!(
        "HTTP/1.1 {} {}\r\nContent-Type: {kind}\r\nConnection: close\r\nCache-Control: no-store\r\n\
         X-Content-Type-Options: nosniff\r\nReferrer-Policy: no-referrer\r\n\
         Content-Security-Policy: default-src 'none'; script-src 'self'; style-src 'self'; connect-src 'self'; img-src data:; \
         base-uri 'none'; form-action 'none'; frame-ancestors 'none'\r\n",
        status as u16,
        status.words()
    )
}
