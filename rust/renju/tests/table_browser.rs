//! The table of `examples/table` as it is run: in headless Chromium, played by clicks, and ended by an interrupt. What is not installed is
//! said, and its test is not run.

#[allow(dead_code)]
#[path = "../examples/table/house/mod.rs"]
mod house;

use house::House;
use std::env;
use std::fs;
use std::io::{BufRead, BufReader, Read, Write};
use std::net::{Ipv4Addr, TcpListener, TcpStream};
use std::os::unix::process::ExitStatusExt;
use std::process::{Command, Stdio};
use std::sync::Arc;
use std::thread;
use std::time::{Duration, Instant};

/// A program of this name, or the first of several, that can be started.
fn program<'a>(names: &[&'a str]) -> Option<&'a str> {
    let starts = |name: &&&str| Command::new(name).arg("--version").output().is_ok();
    names.iter().find(starts).copied()
}

#[test]
#[ignore = "starts a browser: .ci/table runs it"]
fn in_a_browser() {
    let (Some(node), Some(chromium)) = (
        program(&["node"]),
        program(&["chromium", "chromium-browser"]),
    ) else {
        println!("not run: no chromium or no node");
        return;
    };
    let listener = TcpListener::bind((Ipv4Addr::LOCALHOST, 0)).unwrap();
    let address = listener.local_addr().unwrap();
    let house = Arc::new(House::new(1, None));
    thread::spawn(move || house.listen(&listener));
    let script = concat!(env!("CARGO_MANIFEST_DIR"), "/tests/table/browser.mjs");
    let output = Command::new(node)
        .args([script, chromium, &format!("http://{address}/")])
        .output()
        .unwrap();
    let said = String::from_utf8_lossy(&output.stdout);
    println!("{said}{}", String::from_utf8_lossy(&output.stderr));
    assert!(output.status.success(), "{said}");
}

/// Told by this variable, this program is the table's program.
const SERVE: &str = "TABLE_SERVES";

#[test]
fn serves_where_it_is_told_to() {
    if env::var_os(SERVE).is_some() {
        house::serve(0, 1, None);
    }
}

/// Whether whoever started this has it ignore interrupts, as a shell does with what it starts in the background.
fn ignores_interrupts() -> bool {
    let status = fs::read_to_string("/proc/self/status").unwrap_or_default();
    let mask = status.lines().find_map(|line| line.strip_prefix("SigIgn:"));
    let bits = mask.and_then(|mask| u64::from_str_radix(mask.trim(), 16).ok());
    bits.is_none_or(|bits| bits & 0b10 != 0)
}

#[test]
fn an_interrupt_ends_it() {
    if program(&["kill"]).is_none() || ignores_interrupts() {
        println!("not run: no kill, or interrupts are ignored here");
        return;
    }
    let mut own = Command::new(env::current_exe().unwrap());
    own.args(["--exact", "serves_where_it_is_told_to", "--nocapture"])
        .env(SERVE, "1");
    let mut child = own.stdout(Stdio::piped()).spawn().unwrap();
    let lines = BufReader::new(child.stdout.take().unwrap()).lines();
    let mut addresses = lines
        .map_while(Result::ok)
        .filter_map(|line| Some(line.split_once("http://")?.1.trim_matches('/').to_owned()));
    let address = addresses.next().unwrap();

    // A page is at the table, and a request is only half written.
    let mut page = TcpStream::connect(&address).unwrap();
    write!(
        page,
        "GET /events?seat=black HTTP/1.1\r\nHost: {address}\r\n\r\n"
    )
    .unwrap();
    assert!(page.read(&mut [0; 512]).unwrap() > 0);
    let mut half = TcpStream::connect(&address).unwrap();
    half.write_all(b"GET / HT").unwrap();

    let began = Instant::now();
    assert!(
        Command::new("kill")
            .args(["-INT", &child.id().to_string()])
            .status()
            .unwrap()
            .success()
    );
    let status = child.wait().unwrap();
    assert_eq!(status.signal(), Some(2));
    assert!(began.elapsed() < Duration::from_secs(2));
}
