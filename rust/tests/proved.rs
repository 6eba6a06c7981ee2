//! The test programs of `crates/`, erased, and `layers`, the tests of what is beyond the port:
//! their tables of rows, their other tests, and each of their requests for memory refused in turn.
//! The generated code is compiled into this test itself, so that they reach what isn't public. Each
//! run is this test once more, with the name of a program.

extern crate alloc;

use std::alloc::{GlobalAlloc, Layout, System};
use std::io::Write;
use std::process::{Command, Stdio};
use std::sync::atomic::{AtomicI64, Ordering::SeqCst};
use std::{env, fs, io, process, thread};

mod layers;
#[path = "../src/proved/mod.rs"]
mod proved;
#[path = "../src/rattle_std.rs"]
#[allow(dead_code)]
mod rattle_std;

use rattle_std::HostRuntime;

/// Refuses one request: the one at which the count is at zero.
struct Refusing;

static LEFT: AtomicI64 = AtomicI64::new(i64::MAX);

#[global_allocator]
static REFUSING: Refusing = Refusing;

// SAFETY: each call is passed on to `System`, or returns null, as `alloc` may.
unsafe impl GlobalAlloc for Refusing {
    unsafe fn alloc(&self, layout: Layout) -> *mut u8 {
        if LEFT.fetch_sub(1, SeqCst) == 1 {
            return std::ptr::null_mut();
        }
        System.alloc(layout)
    }

    unsafe fn dealloc(&self, at: *mut u8, layout: Layout) {
        System.dealloc(at, layout)
    }
}

/// The test programs of `crates/` make up to so many requests before the first call.
const REQUESTS: i64 = 1000;

/// A call that makes one request fewer here: a printed `String` of Rust's has room for 8 bytes at
/// first, so that a byte more needs none.
const ONE_FEWER: &str = "concat_of_a_text";

/// The programs, the files of each, and whether it reads a table of rows.
const PROGRAMS: [(&str, &str, bool); 4] = [
    ("library", "crates/library_tests", false),
    ("rows", "crates/replayed_cases", true),
    ("filter", "crates/filter_tests", false),
    ("layers", "rust/tests/layers", true),
];

fn main() {
    let mut words = env::args().skip(1);
    let Some(program) = words.next().filter(|word| !word.starts_with('-')) else {
        return compare_all();
    };
    let refused = words.next().map(|count| count.parse::<i64>().expect("a number"));
    if let Some(count) = refused {
        drop(io::stdout().lock());
        drop(io::stdin().lock());
        LEFT.store(if program == "layers" { count } else { REQUESTS }, SeqCst);
    }
    let ended = match program.as_str() {
        "library" => proved::library_tests::main(HostRuntime),
        "rows" => proved::replayed_cases::main(HostRuntime),
        "filter" => proved::filter_tests::main(HostRuntime),
        "small" => proved::small_inputs::main(HostRuntime),
        _ if refused.is_some() => layers::refused::main(),
        _ => layers::rows::main(),
    };
    if ended.is_err() {
        process::exit(1);
    }
}

fn compare_all() {
    if !["/../crates", "/tests/data"].iter().any(|it| fs::metadata(format!("{ROOT}{it}")).is_ok()) {
        println!("rows: in the repository and in the package of `make crate`, not here");
        return;
    }
    layers::test();
    println!("layers: passed");
    for (program, files, is_table) in PROGRAMS {
        let rows = if is_table { data(&format!("{files}/stdin")) } else { Vec::new() };
        let written = run(&[program], rows);
        compare(program, &data(&format!("{files}/stdout")), &written);
        // An optimized program doesn't make the requests that only count.
        if cfg!(debug_assertions) && program != "rows" {
            refuse_each_request(program, &data(&format!("{files}/requests")));
        }
    }
}

const ROOT: &str = env!("CARGO_MANIFEST_DIR");

/// A file of a program. `make crate` packs those of `crates/` in `tests/data`. A package that cargo
/// makes by itself has none.
fn data(name: &str) -> Vec<u8> {
    let (directory, name) = name.split_once('/').expect("a path");
    let from = if directory == "rust" { ["", ""] } else { ["/../crates", "/tests/data"] };
    let found = from.iter().find_map(|it| fs::read(format!("{ROOT}{it}/{name}")).ok());
    found.unwrap_or_else(|| panic!("there is no file {name}"))
}

/// This test as a command, for another processor after the words of the variable RUNNER.
fn this_test() -> Command {
    let path = env::current_exe().expect("this test has a path");
    let runner = env::var("RUNNER").unwrap_or_default();
    let mut words = runner.split_whitespace();
    let Some(first) = words.next() else {
        return Command::new(path);
    };
    let mut command = Command::new(first);
    command.args(words).arg(path);
    command
}

/// What a program writes for an input. It has to end with status 0.
fn run(words: &[&str], input: Vec<u8>) -> Vec<u8> {
    let mut child = this_test()
        .args(words)
        .stdin(Stdio::piped())
        .stdout(Stdio::piped())
        .spawn()
        .expect("this test runs");
    let mut to_child = child.stdin.take().expect("a pipe");
    let writer = thread::spawn(move || to_child.write_all(&input));
    let output = child.wait_with_output().expect("this test ends");
    writer.join().expect("no panic").expect("it reads its input");
    assert!(output.status.success(), "{words:?}: {}", output.status);
    output.stdout
}

/// Stops at the first line that differs.
fn compare(what: &str, wanted: &[u8], found: &[u8]) {
    let wanted = String::from_utf8_lossy(wanted);
    let found = String::from_utf8_lossy(found);
    for (number, (wanted, found)) in wanted.lines().zip(found.lines()).enumerate() {
        assert_eq!(wanted, found, "{what}, line {}", number + 1);
    }
    assert_eq!(wanted, found, "{what}: one ends before the other");
    println!("{what}: {} lines, passed", wanted.lines().count());
}

/// `requests` has each call and how many requests it makes. The one that is refused is the first of
/// the first call, then its second, and so on. A program of `crates/` therefore makes others first.
fn refuse_each_request(program: &str, requests: &[u8]) {
    let requests = std::str::from_utf8(requests).expect("a text");
    let mut count = 0i64;
    for line in requests.lines() {
        let (call, of_call) = line.split_once(' ').expect("a call and a number");
        let of_call: usize = of_call.parse().expect("a number");
        for _ in usize::from(call == ONE_FEWER)..of_call {
            count += 1;
            compare_refused(program, count, &format!("refused: {call}\ndone\n"));
        }
    }
    compare_refused(program, count + 1, "done\n");
    println!("{program}: each of {count} requests refused, passed");
}

fn compare_refused(program: &str, count: i64, wanted: &str) {
    let before = if program == "layers" { String::new() } else { (REQUESTS - count).to_string() };
    let found = run(&[program, &count.to_string()], before.into_bytes());
    assert_eq!(wanted, String::from_utf8_lossy(&found), "{program}, request {count}");
}
