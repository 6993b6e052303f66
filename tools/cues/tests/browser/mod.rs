//! A small driver of headless Chromium over its DevTools protocol, with the standard library only.
//! It opens one page, evaluates expressions in it, and sends real mouse and key events.
//! Every wait ends: after `PATIENCE` an error says what was waited for.

#![allow(dead_code)]

use std::env;
use std::fs;
use std::io::{self, Read, Write};
use std::net::TcpStream;
use std::path::{Path, PathBuf};
use std::process::{Child, Command, Stdio};
use std::sync::atomic::{AtomicU32, Ordering};
use std::thread::sleep;
use std::time::{Duration, Instant};

const PATIENCE: Duration = Duration::from_secs(60);
const PROGRAMS: [&str; 3] = ["chromium", "chromium-browser", "google-chrome"];

/// The middle of the part of an element that no scrolled box and no window's edge cuts off, as "x,y"; "" if there is none.
const MIDDLE: &str = "(selector) => {
    const element = document.querySelector(selector);
    if (!element) return '';
    const box = element.getBoundingClientRect();
    let left = Math.max(0, box.left), right = Math.min(innerWidth, box.right);
    let top = Math.max(0, box.top), bottom = Math.min(innerHeight, box.bottom);
    for (let outer = element.parentElement; outer; outer = outer.parentElement) {
        if (getComputedStyle(outer).overflowX === 'visible') continue;
        const clip = outer.getBoundingClientRect();
        left = Math.max(left, clip.left), right = Math.min(right, clip.right);
        top = Math.max(top, clip.top), bottom = Math.min(bottom, clip.bottom);
    }
    return left < right && top < bottom ? `${(left + right) / 2},${(top + bottom) / 2}` : '';
}";

pub type Outcome<T> = Result<T, String>;

/// The browser found in PATH, if there is one.
pub fn program() -> Option<PathBuf> {
    let path = env::var_os("PATH")?;
    let folders: Vec<PathBuf> = env::split_paths(&path).collect();
    PROGRAMS.iter().flat_map(|name| folders.iter().map(move |folder| folder.join(name))).find(|file| file.is_file())
}

/// A running browser with a profile of its own; both go when this is dropped.
struct Browser {
    child: Child,
    profile: PathBuf,
    port: u16,
}

impl Browser {
    fn start(program: &Path) -> Outcome<Browser> {
        static COUNT: AtomicU32 = AtomicU32::new(0);
        let number = COUNT.fetch_add(1, Ordering::Relaxed);
        let profile = env::temp_dir().join(format!("cues-browser-{}-{}", std::process::id(), number));
        let _ = fs::remove_dir_all(&profile);
        fs::create_dir_all(&profile).map_err(|e| format!("no profile folder: {e}"))?;
        let child = Command::new(program)
            .args(["--headless", "--no-sandbox", "--disable-gpu", "--no-first-run", "--disable-extensions"])
            .args(["--disable-dev-shm-usage", "--window-size=1400,900", "--remote-debugging-port=0"])
            .arg(format!("--user-data-dir={}", profile.display()))
            .arg("about:blank")
            .stdin(Stdio::null())
            .stdout(Stdio::null())
            .stderr(Stdio::null())
            .spawn()
            .map_err(|e| format!("the browser does not start: {e}"))?;
        let mut browser = Browser { child, profile, port: 0 };
        browser.port = browser.read_port()?;
        Ok(browser)
    }

    /// The browser writes the port it chose into a file of its profile.
    fn read_port(&mut self) -> Outcome<u16> {
        let file = self.profile.join("DevToolsActivePort");
        let began = Instant::now();
        while began.elapsed() < PATIENCE {
            let text = fs::read_to_string(&file).unwrap_or_default();
            if let (Some(Ok(port)), true) = (text.lines().next().map(str::parse), text.contains('\n')) {
                return Ok(port);
            }
            if let Ok(Some(status)) = self.child.try_wait() {
                return Err(format!("the browser ended early: {status}"));
            }
            sleep(Duration::from_millis(30));
        }
        Err("the browser named no port".to_string())
    }

    fn connect(&self) -> Outcome<TcpStream> {
        let stream = TcpStream::connect(("127.0.0.1", self.port)).map_err(|e| format!("no connection: {e}"))?;
        stream.set_read_timeout(Some(PATIENCE)).map_err(|e| e.to_string())?;
        stream.set_write_timeout(Some(PATIENCE)).map_err(|e| e.to_string())?;
        Ok(stream)
    }

    /// Opens a page and returns the path of its WebSocket.
    fn open_target(&self, url: &str) -> Outcome<String> {
        let mut stream = self.connect()?;
        let request = format!("PUT /json/new?{url} HTTP/1.1\r\nHost: 127.0.0.1:{}\r\nConnection: close\r\n\r\n", self.port);
        stream.write_all(request.as_bytes()).map_err(|e| format!("no request: {e}"))?;
        let answer = read_http(&mut stream)?;
        let address = json_string(&answer, "webSocketDebuggerUrl").ok_or_else(|| format!("no page opened: {answer}"))?;
        address.find("/devtools").map(|at| address[at..].to_string()).ok_or_else(|| format!("odd address: {address}"))
    }
}

impl Drop for Browser {
    fn drop(&mut self) {
        // Asked to close, it usually ends by itself, with its helper processes.
        for _ in 0..40 {
            if !matches!(self.child.try_wait(), Ok(None)) {
                break;
            }
            sleep(Duration::from_millis(40));
        }
        let _ = self.child.kill();
        let _ = self.child.wait();
        // Helpers may write for a moment longer.
        for _ in 0..50 {
            if fs::remove_dir_all(&self.profile).is_ok() || !self.profile.exists() {
                break;
            }
            sleep(Duration::from_millis(40));
        }
    }
}

/// Reads the head of an answer and as many bytes as its Content-Length says.
fn read_http(stream: &mut TcpStream) -> Outcome<String> {
    let head = read_head(stream)?;
    let length = head
        .lines()
        .filter_map(|line| line.split_once(':'))
        .find(|(name, _)| name.eq_ignore_ascii_case("content-length"))
        .and_then(|(_, value)| value.trim().parse().ok())
        .unwrap_or(0);
    let mut body = vec![0; length];
    stream.read_exact(&mut body).map_err(|e| format!("answer cut short: {e}"))?;
    Ok(String::from_utf8_lossy(&body).into_owned())
}

/// Reads up to and with the empty line after the head.
fn read_head(stream: &mut TcpStream) -> Outcome<String> {
    let mut head = Vec::new();
    let mut byte = [0];
    while !head.ends_with(b"\r\n\r\n") {
        stream.read_exact(&mut byte).map_err(|e| format!("no answer: {e}"))?;
        head.push(byte[0]);
    }
    Ok(String::from_utf8_lossy(&head).into_owned())
}

/// One page of a browser of its own.
pub struct Page {
    socket: TcpStream,
    last_id: u64,
    _browser: Browser,
}

impl Page {
    /// Opens a file, with an address part such as "#node-3" or "" after it, and waits until the page says that it is ready.
    pub fn open(program: &Path, file: &Path, part: &str) -> Outcome<Page> {
        let file = file.canonicalize().map_err(|e| format!("no page file: {e}"))?;
        let browser = Browser::start(program)?;
        let path = browser.open_target(&format!("file://{}{}", percent(&file.to_string_lossy()), part))?;
        let socket = open_socket(browser.connect()?, browser.port, &path)?;
        let mut page = Page { socket, last_id: 0, _browser: browser };
        page.wait_for("document.body && document.body.dataset.ready === 'true'")?;
        Ok(page)
    }

    /// Waits until a JavaScript condition holds.
    pub fn wait_for(&mut self, condition: &str) -> Outcome<()> {
        let began = Instant::now();
        while began.elapsed() < PATIENCE {
            if self.eval(&format!("String(!!({condition}))"))? == "true" {
                return Ok(());
            }
            sleep(Duration::from_millis(30));
        }
        Err(format!("never came true: {condition}"))
    }

    /// Evaluates an expression that gives a string.
    pub fn eval(&mut self, expression: &str) -> Outcome<String> {
        let answer =
            self.call("Runtime.evaluate", &format!("{{\"returnByValue\":true,\"expression\":{}}}", quoted(expression)))?;
        if answer.contains("\"exceptionDetails\"") {
            return Err(format!("{expression}: {answer}"));
        }
        json_string(&answer, "value").ok_or_else(|| format!("{expression} gave no string: {answer}"))
    }

    /// A mouse click in the middle of what can be seen of the first element that the selector finds.
    pub fn click(&mut self, selector: &str) -> Outcome<()> {
        let middle = self.eval(&format!("({MIDDLE})({})", quoted(selector)))?;
        let (x, y) = middle.split_once(',').ok_or_else(|| format!("nothing to click: {selector}"))?;
        self.call("Input.dispatchMouseEvent", &format!("{{\"type\":\"mouseMoved\",\"x\":{x},\"y\":{y}}}"))?;
        for kind in ["mousePressed", "mouseReleased"] {
            let event = format!("{{\"type\":\"{kind}\",\"x\":{x},\"y\":{y},\"button\":\"left\",\"buttons\":1,\"clickCount\":1}}");
            self.call("Input.dispatchMouseEvent", &event)?;
        }
        Ok(())
    }

    /// A key pressed and released: "ArrowUp", "Home", "Tab", "Enter", "+" and so on.
    pub fn key(&mut self, key: &str) -> Outcome<()> {
        let code = key_code(key);
        let text = if key == "Enter" {
            "\r"
        } else if key.chars().count() == 1 {
            key
        } else {
            ""
        };
        let common = format!("\"key\":{},\"code\":{},\"windowsVirtualKeyCode\":{code}", quoted(key), quoted(key));
        let down = if text.is_empty() {
            format!("{{\"type\":\"rawKeyDown\",{common}}}")
        } else {
            format!("{{\"type\":\"keyDown\",{common},\"text\":{}}}", quoted(text))
        };
        self.call("Input.dispatchKeyEvent", &down)?;
        self.call("Input.dispatchKeyEvent", &format!("{{\"type\":\"keyUp\",{common}}}"))?;
        Ok(())
    }

    /// Writes what the window shows as a PNG file.
    pub fn screenshot(&mut self, file: &Path) -> Outcome<()> {
        let answer = self.call("Page.captureScreenshot", "{\"format\":\"png\"}")?;
        let data = json_string(&answer, "data").ok_or("no picture taken")?;
        fs::write(file, base64(&data)).map_err(|e| e.to_string())
    }

    /// Calls a method of the protocol and returns the answer's text; what else comes in the meantime is passed over.
    pub fn call(&mut self, method: &str, parameters: &str) -> Outcome<String> {
        self.last_id += 1;
        let id = self.last_id;
        let message = format!("{{\"id\":{id},\"method\":\"{method}\",\"params\":{parameters}}}");
        send_text(&mut self.socket, &message).map_err(|e| format!("{method}: not sent: {e}"))?;
        let began = Instant::now();
        while began.elapsed() < PATIENCE {
            let answer = receive_text(&mut self.socket).map_err(|e| format!("{method}: no answer: {e}"))?;
            if !answer.starts_with(&format!("{{\"id\":{id},")) {
                continue;
            }
            if answer.contains(&format!("{{\"id\":{id},\"error\"")) {
                return Err(format!("{method}: {answer}"));
            }
            return Ok(answer);
        }
        Err(format!("{method}: no answer"))
    }
}

impl Drop for Page {
    fn drop(&mut self) {
        let _ = send_text(&mut self.socket, "{\"id\":0,\"method\":\"Browser.close\"}");
    }
}

/// The client's side of the handshake. The key is fixed: nothing here needs a fresh one.
fn open_socket(mut stream: TcpStream, port: u16, path: &str) -> Outcome<TcpStream> {
    let request = format!(
        "GET {path} HTTP/1.1\r\nHost: 127.0.0.1:{port}\r\nUpgrade: websocket\r\nConnection: Upgrade\r\n\
         Sec-WebSocket-Key: dGhlIHNhbXBsZSBub25jZQ==\r\nSec-WebSocket-Version: 13\r\n\r\n"
    );
    stream.write_all(request.as_bytes()).map_err(|e| format!("no handshake: {e}"))?;
    let head = read_head(&mut stream)?;
    if head.starts_with("HTTP/1.1 101") {
        Ok(stream)
    } else {
        Err(format!("handshake refused: {head}"))
    }
}

/// A text frame, whole, masked as a client's must be.
fn send_text(stream: &mut TcpStream, text: &str) -> io::Result<()> {
    send_frame(stream, 1, text.as_bytes())
}

fn send_frame(stream: &mut TcpStream, opcode: u8, data: &[u8]) -> io::Result<()> {
    let mask = [0x5a, 0x13, 0xc7, 0x2e];
    let mut frame = vec![0x80 | opcode];
    match data.len() {
        length @ 0..=125 => frame.push(0x80 | length as u8),
        length @ 126..=65535 => {
            frame.push(0x80 | 126);
            frame.extend((length as u16).to_be_bytes());
        }
        length => {
            frame.push(0x80 | 127);
            frame.extend((length as u64).to_be_bytes());
        }
    }
    frame.extend(mask);
    frame.extend(data.iter().enumerate().map(|(i, byte)| byte ^ mask[i % 4]));
    stream.write_all(&frame)
}

/// The next text message, put together from its frames; pings are answered, a close is an error.
fn receive_text(stream: &mut TcpStream) -> io::Result<String> {
    let mut message = Vec::new();
    loop {
        let (last, opcode, data) = receive_frame(stream)?;
        match opcode {
            0 | 1 => {
                message.extend(data);
                if last {
                    return Ok(String::from_utf8_lossy(&message).into_owned());
                }
            }
            8 => return Err(io::Error::new(io::ErrorKind::ConnectionAborted, "the browser closed the socket")),
            9 => send_frame(stream, 10, &data)?,
            _ => {}
        }
    }
}

/// One frame: whether it is the last of its message, its opcode, its data. A server's frames have no mask.
fn receive_frame(stream: &mut TcpStream) -> io::Result<(bool, u8, Vec<u8>)> {
    let mut head = [0; 2];
    stream.read_exact(&mut head)?;
    let length = match head[1] & 0x7f {
        126 => {
            let mut bytes = [0; 2];
            stream.read_exact(&mut bytes)?;
            u16::from_be_bytes(bytes) as usize
        }
        127 => {
            let mut bytes = [0; 8];
            stream.read_exact(&mut bytes)?;
            u64::from_be_bytes(bytes) as usize
        }
        short => short as usize,
    };
    let mut data = vec![0; length];
    stream.read_exact(&mut data)?;
    Ok((head[0] & 0x80 != 0, head[0] & 0x0f, data))
}

/// The first string of that name in a JSON text, its escapes undone. Enough for what the browser answers here.
fn json_string(json: &str, name: &str) -> Option<String> {
    let label = format!("\"{name}\":");
    let rest = json[json.find(&label)? + label.len()..].trim_start();
    let mut signs = rest.strip_prefix('"')?.chars();
    let mut units: Vec<u16> = Vec::new();
    loop {
        let sign = match signs.next()? {
            '"' => return Some(String::from_utf16_lossy(&units)),
            '\\' => match signs.next()? {
                'n' => '\n',
                'r' => '\r',
                't' => '\t',
                'b' => '\u{8}',
                'f' => '\u{c}',
                'u' => {
                    let digits: String = signs.by_ref().take(4).collect();
                    units.push(u16::from_str_radix(&digits, 16).ok()?);
                    continue;
                }
                other => other,
            },
            other => other,
        };
        units.extend(sign.encode_utf16(&mut [0; 2]).iter());
    }
}

/// A text as a JSON string.
fn quoted(text: &str) -> String {
    let mut out = String::from("\"");
    for sign in text.chars() {
        match sign {
            '"' => out.push_str("\\\""),
            '\\' => out.push_str("\\\\"),
            sign if (sign as u32) < 32 => out.push_str(&format!("\\u{:04x}", sign as u32)),
            sign => out.push(sign),
        }
    }
    out.push('"');
    out
}

/// A path as part of an address: all but plain signs as percent codes.
fn percent(path: &str) -> String {
    path.bytes()
        .map(|byte| match byte {
            b'/' | b'.' | b'-' | b'_' | b'~' | b'0'..=b'9' | b'A'..=b'Z' | b'a'..=b'z' => (byte as char).to_string(),
            _ => format!("%{byte:02X}"),
        })
        .collect()
}

/// The number that goes with a key's name.
fn key_code(key: &str) -> u32 {
    match key {
        "Tab" => 9,
        "Enter" => 13,
        "Escape" => 27,
        "PageUp" => 33,
        "PageDown" => 34,
        "End" => 35,
        "Home" => 36,
        "ArrowLeft" => 37,
        "ArrowUp" => 38,
        "ArrowRight" => 39,
        "ArrowDown" => 40,
        "+" => 187,
        "-" => 189,
        "/" | "?" => 191,
        _ => key.chars().next().map_or(0, |sign| sign.to_ascii_uppercase() as u32),
    }
}

/// The bytes of a base64 text.
fn base64(text: &str) -> Vec<u8> {
    let value = |byte: u8| match byte {
        b'A'..=b'Z' => Some(byte - b'A'),
        b'a'..=b'z' => Some(byte - b'a' + 26),
        b'0'..=b'9' => Some(byte - b'0' + 52),
        b'+' => Some(62),
        b'/' => Some(63),
        _ => None,
    };
    let (mut out, mut bits, mut count) = (Vec::new(), 0u32, 0);
    for six in text.bytes().filter_map(value) {
        bits = bits << 6 | six as u32;
        count += 6;
        if count >= 8 {
            count -= 8;
            out.push((bits >> count) as u8);
            bits &= (1 << count) - 1;
        }
    }
    out
}
