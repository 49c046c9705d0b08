//! Rows: each asks both sides in turn, many times over, and prints the least times, their ratio, and
//! the median of the rounds' ratios.

use std::time::{Duration, Instant};

/// A round of one side lasts this long at least, so that the clock's own steps do not count.
const ROUND: Duration = Duration::from_micros(200);
/// A row takes rounds until this much time is spent, but not fewer and not more than these.
const ROW: Duration = Duration::from_millis(500);
const ROUNDS: std::ops::RangeInclusive<usize> = 15..=1001;

pub struct Driver {
    pattern: String,
    plain: bool,
    topic: &'static str,
    printed: &'static str,
    notes: Vec<String>,
    met: bool,
}

/// The processor time of this thread: what others do on the machine does not count, but for the caches
/// that they share.
fn clock() -> Duration {
    #[repr(C)]
    struct Timespec {
        seconds: i64,
        nanoseconds: i64,
    }
    extern "C" {
        fn clock_gettime(clock: i32, time: *mut Timespec) -> i32;
    }
    const THREAD: i32 = 3;
    let mut time = Timespec {
        seconds: 0,
        nanoseconds: 0,
    };
    // Sound: it writes one timespec, which on 64-bit Linux is two i64.
    assert_eq!(unsafe { clock_gettime(THREAD, &mut time) }, 0);
    Duration::new(time.seconds as u64, time.nanoseconds as u32)
}

/// One side: how often it is called in a round, and what the rounds took, in seconds a call.
struct Side<F> {
    call: F,
    repeats: u32,
    least: f64,
}

impl<F: FnMut() -> u64> Side<F> {
    /// With as many calls to a round as it takes to last.
    fn new(mut call: F) -> (Self, u64) {
        let sum = call();
        assert_eq!(call(), sum, "two answers to one question");
        let mut side = Side {
            call,
            repeats: 1,
            least: f64::INFINITY,
        };
        while side.round() * f64::from(side.repeats) < ROUND.as_secs_f64() {
            side.repeats *= 2;
        }
        // Short rounds count the clock's own time, and none of them is to be the least.
        side.least = f64::INFINITY;
        (side, sum)
    }

    fn round(&mut self) -> f64 {
        let began = clock();
        for _ in 0..self.repeats {
            std::hint::black_box((self.call)());
        }
        let each = (clock() - began).as_secs_f64() / f64::from(self.repeats);
        self.least = self.least.min(each);
        each
    }
}

fn rounds(mut round: impl FnMut(usize)) {
    let began = Instant::now();
    for number in 0..*ROUNDS.end() {
        if number >= *ROUNDS.start() && began.elapsed() > ROW {
            break;
        }
        round(number);
    }
}

impl Driver {
    /// Measures the rows that have the pattern in their text. Plain, a row is its text, our time and
    /// theirs in nanoseconds, with tabs between them, and nothing else is printed.
    pub fn new(pattern: String, plain: bool) -> Self {
        Driver {
            pattern,
            plain,
            topic: "",
            printed: "",
            notes: Vec::new(),
            met: false,
        }
    }

    /// The rows that follow belong to a topic.
    pub fn topic(&mut self, topic: &'static str) {
        for note in self.notes.drain(..).filter(|_| !self.plain) {
            println!("\n{note}");
        }
        self.topic = topic;
    }

    /// A sentence under the topic's table.
    pub fn note(&mut self, note: String) {
        self.notes.push(note);
    }

    /// No more rows. False where the pattern met none, measured or left out.
    pub fn end(mut self) -> bool {
        self.topic("");
        self.met
    }

    fn matches(&mut self, what: &str) -> bool {
        let matches = what.contains(&self.pattern);
        self.met |= matches;
        matches
    }

    /// Whether a row is measured; if it is the first of its topic, the table's head goes before it.
    fn wanted(&mut self, what: &str) -> bool {
        if !self.matches(what) {
            return false;
        }
        if self.printed != self.topic && !self.plain {
            self.printed = self.topic;
            println!("\n### {}\n", self.topic);
            println!("| question | ours | pdb | ratio | median ratio |");
            println!("|---|---:|---:|---:|---:|");
        }
        true
    }

    /// A row: both sides ask as many questions and add up the same answers.
    pub fn row(
        &mut self,
        what: &str,
        questions: usize,
        ours: impl FnMut() -> u64,
        theirs: impl FnMut() -> u64,
    ) {
        self.both(what, questions, ours, theirs, true);
    }

    /// A row whose right side is no answer but a limit: the time that the reading alone takes.
    pub fn limit(
        &mut self,
        what: &str,
        questions: usize,
        ours: impl FnMut() -> u64,
        limit: impl FnMut() -> u64,
    ) {
        self.both(what, questions, ours, limit, false);
    }

    fn both(
        &mut self,
        what: &str,
        questions: usize,
        ours: impl FnMut() -> u64,
        theirs: impl FnMut() -> u64,
        same: bool,
    ) {
        if !self.wanted(what) {
            return;
        }
        let (mut ours, sum) = Side::new(ours);
        let (mut theirs, their_sum) = Side::new(theirs);
        assert!(!same || sum == their_sum, "{what}: the answers differ");
        let mut ratios = Vec::new();
        rounds(|number| {
            // Neither side is always the first.
            let (a, b) = if number % 2 == 0 {
                let a = ours.round();
                (a, theirs.round())
            } else {
                let b = theirs.round();
                (ours.round(), b)
            };
            ratios.push(a / b);
        });
        ratios.sort_by(f64::total_cmp);
        let each = |least: f64| least / questions as f64;
        let (ours, theirs) = (each(ours.least), each(theirs.least));
        if self.plain {
            println!("{what}\t{}\t{}", ours * 1e9, theirs * 1e9);
            return;
        }
        println!(
            "| {what} | {} | {} | {:.2} | {:.2} |",
            shown(ours),
            shown(theirs),
            ours / theirs,
            ratios[ratios.len() / 2]
        );
    }

    /// A row of a question that pdb lacks; gives the least time of a call, where it was measured.
    pub fn ours(&mut self, what: &str, questions: usize, ours: impl FnMut() -> u64) -> Option<f64> {
        if !self.wanted(what) {
            return None;
        }
        let (mut ours, _) = Side::new(ours);
        rounds(|_| {
            ours.round();
        });
        let each = ours.least / questions as f64;
        if self.plain {
            println!("{what}\t{}\t", each * 1e9);
        } else {
            println!("| {what} | {} | – | – | – |", shown(each));
        }
        Some(ours.least)
    }

    /// A row that can't be measured here, and why.
    pub fn left_out(&mut self, what: &str, why: &str) {
        if self.matches(what) {
            self.note(format!("Left out: {what}: {why}."));
        }
    }
}

fn shown(seconds: f64) -> String {
    match seconds {
        each if each < 1e-6 => format!("{:.2} ns", each * 1e9),
        each if each < 1e-3 => format!("{:.2} µs", each * 1e6),
        each if each < 1.0 => format!("{:.2} ms", each * 1e3),
        each => format!("{each:.2} s"),
    }
}

/// A size in words, with a comma at each thousand: `1,000 records`.
pub fn many(number: usize, what: &str) -> String {
    let digits = number.to_string();
    let mut text = String::new();
    for (place, digit) in digits.chars().enumerate() {
        if place > 0 && (digits.len() - place) % 3 == 0 {
            text.push(',');
        }
        text.push(digit);
    }
    format!("{text} {what}{}", if number == 1 { "" } else { "s" })
}

/// Adds an answer up. A short chain, so that it does not hide what it adds.
#[inline(always)]
pub fn add(sum: u64, answer: u64) -> u64 {
    sum.rotate_left(5) ^ answer
}

/// Asks each question and adds the answers up.
#[inline(always)]
pub fn all<Q: Copy>(asked: &[Q], ask: impl Fn(Q) -> u64) -> u64 {
    asked
        .iter()
        .fold(0, |sum, &question| add(sum, ask(question)))
}

/// As [`all`], where no question can begin before the one before it is answered.
pub fn in_turn(asked: &[u32], ask: impl Fn(u32) -> u64) -> u64 {
    let one = |(sum, last), &question: &u32| {
        // What `told` gives has 33 bits, so that this adds 0.
        let told = ask(question + (std::hint::black_box(last) >> 40) as u32);
        (add(sum, told), told)
    };
    asked.iter().fold((0, 0), one).0
}

/// A number or none, as a number.
#[inline(always)]
pub fn told(number: Option<u32>) -> u64 {
    number.map_or(0, |n| u64::from(n) + 1)
}
