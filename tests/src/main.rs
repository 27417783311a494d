//! The outside tests: hand-written cases and random ones, on the oracle and on
//! the library, on the stand-in and on the program. OBOEPOND_CASES="seed:count"
//! sets seed and number of random cases; case n of a run with seed s is case 0
//! of a run with seed s + n. OBOEPOND_TRACE=1 names every random case before it
//! runs. Arguments: none, everything; `program`, the program's tests alone;
//! `pieces`, reading in pieces alone; `stand-in`, run in the program's place;
//! `season N`, a long run of the program with N MB of each kind of lines;
//! `pages`, the pages and the widths of lines alone; `crate`, the Rust crate alone.

#[cfg(feature = "library")]
mod abi;
mod bursts;
mod by_hand;
mod cable;
#[rustfmt::skip]
mod cases;
#[cfg(feature = "library")]
mod easy;
#[cfg(feature = "library")]
mod easy_cases;
mod gen;
#[cfg(feature = "library")]
mod lending;
#[cfg(feature = "library")]
mod library;
#[cfg(feature = "library")]
mod looks;
#[cfg(feature = "library")]
mod lookups;
mod memory;
mod oracle;
mod pages;
mod pieces;
mod program;
mod program_cases;
mod program_random;
mod program_runs;
mod random;
mod season;
#[cfg(feature = "library")]
mod signatures;
#[cfg(feature = "library")]
mod signatures_wrong;
#[cfg(feature = "library")]
mod stack;
mod subject;

use program_runs::{Binary, Program, StandIn};
use random::{Group, Reached, GROUPS, TO_REACH};
use std::any::Any;
use std::io::Write;
use std::panic::{catch_unwind, AssertUnwindSafe};
use std::sync::atomic::{AtomicU64, Ordering};
use std::sync::Mutex;
use std::time::{Duration, Instant};
use subject::{Oracle, Subject};

const DEFAULT_CASES: (u64, u64) = (1, 40_000);
/// Random cases of the crate's easy layer, one in so many of the library's.
#[cfg(feature = "library")]
const CRATE_SHARE: u64 = 10;
/// Runs of the program among the random cases, in thousandths.
const PROGRAM_SHARE: u64 = 10;
/// Failures printed in one group of cases.
const MOST_PRINTED: usize = 12;

static PASSED: AtomicU64 = AtomicU64::new(0);
static FAILED: AtomicU64 = AtomicU64::new(0);

// A case that does not end is named by a watch.
static BEATS: AtomicU64 = AtomicU64::new(0);
static CURRENT: Mutex<String> = Mutex::new(String::new());

fn begin(what: impl Into<String>) {
    BEATS.fetch_add(1, Ordering::Relaxed);
    *CURRENT.lock().unwrap_or_else(|e| e.into_inner()) = what.into();
}

fn watch() {
    std::thread::spawn(|| {
        let (mut last, mut still) = (0, 0);
        loop {
            std::thread::sleep(Duration::from_secs(1));
            let now = BEATS.load(Ordering::Relaxed);
            still = if now == last { still + 1 } else { 0 };
            last = now;
            if still >= 120 {
                let what = CURRENT.lock().unwrap_or_else(|e| e.into_inner()).clone();
                println!("FAILED: no end within two minutes, the run is given up: {what}");
                FAILED.fetch_add(1, Ordering::Relaxed);
                finish();
            }
        }
    });
}

/// The last line and the exit status.
fn finish() -> ! {
    let (passed, failed) = (PASSED.load(Ordering::Relaxed), FAILED.load(Ordering::Relaxed));
    println!("{passed} passed, {failed} failed");
    std::process::exit(if failed > 0 || passed == 0 { 1 } else { 0 })
}

#[derive(Default)]
struct Tally {
    /// Failures of the list at hand.
    here: usize,
}

impl Tally {
    fn count(&mut self, subject: &str, name: &str, outcome: Result<(), String>) {
        match outcome {
            Ok(()) => {
                PASSED.fetch_add(1, Ordering::Relaxed);
            }
            Err(why) => {
                FAILED.fetch_add(1, Ordering::Relaxed);
                self.here += 1;
                if self.here <= MOST_PRINTED {
                    println!("FAILED [{subject}] {name}\n  {why}");
                } else if self.here == MOST_PRINTED + 1 {
                    println!("(further failures of this list are counted, not printed)");
                }
            }
        }
    }
}

/// A panic is a failure of its case.
fn guarded(run: impl FnOnce() -> Result<(), String>) -> Result<(), String> {
    catch_unwind(AssertUnwindSafe(run)).unwrap_or_else(|e| Err(format!("panic: {}", panic_text(e))))
}

fn panic_text(e: Box<dyn Any + Send>) -> String {
    match (e.downcast_ref::<String>(), e.downcast_ref::<&str>()) {
        (Some(s), _) => s.clone(),
        (_, Some(s)) => s.to_string(),
        _ => "unknown".into(),
    }
}

fn subject_cases(s: &dyn Subject, what: &str, list: Vec<cases::Case>, tally: &mut Tally) {
    let start = Instant::now();
    tally.here = 0;
    let n = list.len();
    for case in list {
        begin(format!("[{}] {}", s.name(), case.name));
        tally.count(s.name(), &case.name, guarded(|| (case.run)(s)));
    }
    println!("[{}] {n} {what}, {:.1} s", s.name(), start.elapsed().as_secs_f64());
}

fn hand_written(s: &dyn Subject, tally: &mut Tally) {
    subject_cases(s, "hand-written cases", cases::all().cases, tally);
    subject_cases(s, "cases of the cable", cable::cases(), tally);
    subject_cases(s, "cases of reading in pieces", pieces::cases(), tally);
}

/// The generator of case `i` of a group.
fn case_rng(seed: u64, i: u64, group: &str) -> gen::Rng {
    let mut name = 0xcbf2_9ce4_8422_2325u64;
    for b in group.bytes() {
        name = (name ^ b as u64).wrapping_mul(0x100_0000_01b3);
    }
    let mut mix = gen::Rng::new(seed.wrapping_add(i) ^ name.rotate_left(17));
    gen::Rng::new(mix.next())
}

fn random_group(
    s: &dyn Subject,
    group: &Group,
    compare: bool,
    seed: u64,
    count: u64,
    reached: &mut Reached,
) -> Result<(), String> {
    let trace = std::env::var_os("OBOEPOND_TRACE").is_some();
    for i in 0..count {
        let label = format!("[{}] {}, OBOEPOND_CASES=\"{}:1\"", s.name(), group.name, seed.wrapping_add(i));
        if trace {
            println!("{label}");
            let _ = std::io::stdout().flush();
        }
        begin(label.clone());
        let mut rng = case_rng(seed, i, group.name);
        let made = catch_unwind(AssertUnwindSafe(|| (group.make)(&mut rng)));
        let input = made.map_err(|e| format!("generator: {}\n  at {label}", panic_text(e)))?;
        let first = guarded(|| random::run(s, &input, compare, reached));
        let Err(why) = first else { continue };
        // Shrink as far as the disagreement with the oracle lasts.
        let mut unseen = Reached::default();
        let mut fails = |candidate: &random::Input| {
            begin(label.clone());
            compare && guarded(|| random::run(s, candidate, true, &mut unseen)).is_err()
        };
        std::panic::set_hook(Box::new(|_| {}));
        let small = random::shrink(&input, &mut fails);
        let _ = std::panic::take_hook();
        let small_why = guarded(|| random::run(s, &small, compare, &mut unseen)).err().unwrap_or(why);
        return Err(format!("{small_why}\n  first at {label}\n{}", random::show(&small)));
    }
    Ok(())
}

/// The share of a group.
fn run_group(
    s: &dyn Subject,
    group: &Group,
    compare: bool,
    seed: u64,
    count: u64,
    reached: &mut Reached,
    tally: &mut Tally,
) {
    let start = Instant::now();
    tally.here = 0;
    let n = (count * group.share / 1000).max(1);
    let outcome = random_group(s, group, compare, seed, n, reached);
    println!("[{}] {}: {n} cases, {:.1} s", s.name(), group.name, start.elapsed().as_secs_f64());
    tally.count(s.name(), group.name, outcome);
}

fn random_groups(s: &dyn Subject, compare: bool, seed: u64, count: u64, tally: &mut Tally) {
    let mut reached = Reached::default();
    for group in GROUPS {
        // Else nothing is known by construction to hold the oracle against.
        if compare || group.on_oracle {
            run_group(s, group, compare, seed, count, &mut reached, tally);
        }
    }
    for (what, _) in TO_REACH {
        let seen: Vec<String> = reached
            .counts
            .iter()
            .filter(|((w, _), _)| w == *what)
            .map(|((_, number), n)| format!("{number} x {n}"))
            .collect();
        println!("[{}] reached, {what}: {}", s.name(), seen.join(", "));
    }
    // Every number has to be met in a run of some size.
    if compare && count >= 20_000 {
        let mut missing = Vec::new();
        for (what, numbers) in TO_REACH {
            for &number in *numbers {
                if !reached.counts.contains_key(&(what.to_string(), number)) {
                    missing.push(format!("{what} {number}"));
                }
            }
        }
        let outcome = if missing.is_empty() { Ok(()) } else { Err(missing.join(", ")) };
        tally.here = 0;
        tally.count(s.name(), "every number is reached", outcome);
    }
}

fn program_cases(p: &dyn Program, tally: &mut Tally) {
    let start = Instant::now();
    tally.here = 0;
    let list = program_cases::all();
    for case in &list {
        begin(format!("[{}] {}", p.name(), case.name));
        tally.count(p.name(), &case.name, guarded(|| case.run(p)));
    }
    println!("[{}] {} hand-written cases, {:.1} s", p.name(), list.len(), start.elapsed().as_secs_f64());
}

/// The program against the stand-in; the first failing case is made smaller.
fn program_random(p: &dyn Program, seed: u64, count: u64) -> Result<(), String> {
    let trace = std::env::var_os("OBOEPOND_TRACE").is_some();
    for i in 0..count {
        let label = format!("[{}] random lines, OBOEPOND_CASES=\"{}:1\"", p.name(), seed.wrapping_add(i));
        if trace {
            println!("{label}");
        }
        begin(label.clone());
        let case = program_random::make(&mut case_rng(seed, i, "program"));
        let Err(why) = guarded(|| program_random::run(p, &case)) else { continue };
        let mut fails = |candidate: &program_random::Input| {
            begin(label.clone());
            guarded(|| program_random::run(p, candidate)).is_err()
        };
        let small = program_random::shrink(&case, &mut fails);
        let small_why = guarded(|| program_random::run(p, &small)).err().unwrap_or(why);
        return Err(format!("{small_why}\n  first at {label}\n{}", program_random::show(&small)));
    }
    Ok(())
}

fn program_tests(seed: u64, count: u64, tally: &mut Tally) {
    let program = Binary::new();
    program_cases(&program, tally);
    let start = Instant::now();
    tally.here = 0;
    let n = (count * PROGRAM_SHARE / 1000).max(1);
    let outcome = program_random(&program, seed, n);
    println!("[program] random tables and lines: {n} cases, {:.1} s", start.elapsed().as_secs_f64());
    tally.count(program.name(), "random tables and lines", outcome);
}

fn settings() -> (u64, u64) {
    let Ok(text) = std::env::var("OBOEPOND_CASES") else { return DEFAULT_CASES };
    let parsed = text.split_once(':').and_then(|(s, c)| Some((s.trim().parse().ok()?, c.trim().parse().ok()?)));
    parsed.unwrap_or_else(|| {
        println!("OBOEPOND_CASES is \"seed:count\", two numbers; got \"{text}\"");
        std::process::exit(2);
    })
}

fn main() {
    let arguments: Vec<String> = std::env::args().skip(1).collect();
    let arguments: Vec<&str> = arguments.iter().map(|a| a.as_str()).collect();
    match arguments[..] {
        [] => all_tests(false),
        ["program"] => all_tests(true),
        ["pieces"] => pieces_alone(),
        ["pages"] => {
            pages_tests(&mut Tally::default());
            finish()
        }
        #[cfg(feature = "library")]
        ["crate"] => {
            let (seed, count) = settings();
            watch();
            crate_tests(seed, count, &mut Tally::default());
            finish()
        }
        ["stand-in"] => program::stand_in().expect("standard input and output"),
        ["season", mb] => {
            let right = mb.parse().is_ok_and(season::run);
            std::process::exit(if right { 0 } else { 1 });
        }
        _ => {
            println!("arguments: none, `program`, `pieces`, `stand-in`, `season N`, `pages` or `crate`");
            std::process::exit(2);
        }
    }
}

fn all_tests(program_alone: bool) -> ! {
    let (seed, count) = settings();
    println!("OBOEPOND_CASES=\"{seed}:{count}\"");
    watch();
    let mut tally = Tally::default();
    if !program_alone {
        pages_tests(&mut tally);
        library_tests(seed, count, &mut tally);
    }
    program_cases(&StandIn, &mut tally);
    if program_alone || cfg!(feature = "library") {
        program_tests(seed, count, &mut tally);
    }
    finish()
}

/// Reading in pieces: the cases by hand, the C calls, the random groups.
fn pieces_alone() -> ! {
    let (seed, count) = settings();
    println!("OBOEPOND_CASES=\"{seed}:{count}\"");
    watch();
    let mut tally = Tally::default();
    let mut run = |s: &dyn Subject, compare: bool| {
        subject_cases(s, "cases of reading in pieces", pieces::cases(), &mut tally);
        for group in GROUPS.iter().filter(|group| group.name.starts_with("pieces") && (compare || group.on_oracle)) {
            run_group(s, group, compare, seed, count, &mut Reached::default(), &mut tally);
        }
    };
    run(&Oracle, false);
    #[cfg(feature = "library")]
    {
        run(&library::Library, true);
        library_cases("the C calls", &[abi::CASES, stack::CASES].concat(), &mut tally);
    }
    finish()
}

/// A file or name that a page cites and that is not there, and a line that is
/// too long, are failures each; a run that looks at nothing is one too.
fn pages_tests(tally: &mut Tally) {
    let parts = [
        ("names that the pages cite", pages::names()),
        ("edits, and the page that names them", pages::edits()),
        ("widths of lines", pages::widths()),
    ];
    for (name, (seen, failures)) in parts {
        tally.here = 0;
        println!("[pages] {name}: {seen} looked at, {} wrong", failures.len());
        let outcome = if seen == 0 { Err("nothing to look at".into()) } else { Ok(()) };
        tally.count("pages", name, outcome);
        for failure in failures {
            tally.count("pages", name, Err(failure));
        }
    }
}

#[cfg(feature = "library")]
fn library_cases(what: &str, cases: &[abi::AbiCase], tally: &mut Tally) {
    let start = Instant::now();
    tally.here = 0;
    for (name, run) in cases {
        begin(*name);
        tally.count("library", name, guarded(run));
    }
    println!("[library] {} cases of {what}, {:.1} s", cases.len(), start.elapsed().as_secs_f64());
}

/// The crate: its easy layer as a subject and alone, and its declarations.
#[cfg(feature = "library")]
fn crate_tests(seed: u64, count: u64, tally: &mut Tally) {
    subject_cases(&easy::Easy, "hand-written cases", cases::all().cases, tally);
    library_cases("the crate", easy_cases::CASES, tally);
    random_groups(&easy::Easy, true, seed, count, tally);
    let outcomes = [signatures::compared(&signatures::Texts::read()), signatures_wrong::outcomes()].concat();
    println!("[signatures] {} functions, numbers, messages and wrong versions", outcomes.len());
    tally.here = 0;
    for (name, outcome) in outcomes {
        tally.count("signatures", &name, outcome);
    }
}

fn library_tests(seed: u64, count: u64, tally: &mut Tally) {
    hand_written(&Oracle, tally);
    random_groups(&Oracle, false, seed, count, tally);

    #[cfg(feature = "library")]
    {
        let library = library::Library;
        hand_written(&library, tally);
        library_cases("the C calls", &[abi::CASES, stack::CASES].concat(), tally);
        library_cases("the look-ups", looks::CASES, tally);
        random_groups(&library, true, seed, count, tally);
        crate_tests(seed, count / CRATE_SHARE, tally);
    }
    #[cfg(not(feature = "library"))]
    println!("the library is not linked: the oracle alone was run");
}
