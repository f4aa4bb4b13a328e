// A book of a million windows against a log of its own: it makes a request for a small random chain, asks the console for its
// plan, then talks to the program `book` through its pipes as automation would, with odd reports, calls at the wrong stage,
// broken lines and orders past the last window, and compares every reply with a log that shares no code with the book.
// Build: rustc -O --edition 2024 tools/windows.rs -o target/windows
//   windows CONSOLE BOOK SEED WINDOWS     paths of the two programs, a seed, how many windows to book
use std::io::{BufRead, BufReader, BufWriter, Read, Write};
use std::process::{ChildStdin, Command, Stdio};
use std::sync::mpsc::{Receiver, sync_channel};

const WHOLE: u64 = 10_000;
const MOST_WINDOWS: u64 = 1_000_000;

struct Rng(u64);

impl Rng {
    fn next(&mut self) -> u64 {
        self.0 ^= self.0 << 13;
        self.0 ^= self.0 >> 7;
        self.0 ^= self.0 << 17;
        self.0
    }

    fn below(&mut self, n: u64) -> u64 {
        self.next() % n
    }
}

struct Part {
    life: u64,
    hazards: Vec<u64>,
    surplus: u64,
    dark: u64,
}

// A chain in which every part is reached from the door and full renewal meets the threshold.
struct Chain {
    threshold: u64,
    setup: u64,
    alarm: u64,
    parts: Vec<Part>,
    arcs: Vec<(usize, usize, u64)>,
}

fn random_chain(r: &mut Rng) -> Chain {
    let count = 1 + r.below(4);
    let mut parts = vec![];
    for _ in 0..count {
        let life = 1 + r.below(4);
        let most = 8_000 / count;
        let hazards = (0..life).map(|_| r.below(most)).collect();
        parts.push(Part { life, hazards, surplus: r.below(2_000), dark: r.below(300) });
    }
    let failing: u64 = parts.iter().map(|p: &Part| p.hazards[0]).sum();
    let mut arcs = vec![];
    for from in 0..=count as usize {
        for to in 1..=count as usize {
            if from != to && (from == 0 || r.below(2) == 0) {
                arcs.push((from, to, r.below(900)));
            }
        }
    }
    Chain { threshold: r.below(WHOLE - failing + 1), setup: r.below(1_000), alarm: r.below(400), parts, arcs }
}

impl Chain {
    fn text(&self) -> String {
        let mut text = format!("kind=chain\nparts={}\nthreshold={}\nsetup={}\nalarm={}\n", self.parts.len(), self.threshold, self.setup, self.alarm);
        for (i, p) in (1..).zip(&self.parts) {
            let hazards: Vec<String> = p.hazards.iter().map(u64::to_string).collect();
            text += &format!("part={i}\nlife={}\nhazard={}\nsurplus={}\ndark={}\n", p.life, hazards.join(","), p.surplus, p.dark);
        }
        for (from, to, cents) in &self.arcs {
            text += &format!("arc={from},{to},{cents}\n");
        }
        text + "end=plant\n"
    }

    fn states(&self) -> u64 {
        (self.parts.len() as u64 + 1) * self.parts.iter().map(|p| p.life).product::<u64>()
    }

    // The failed part, 0 for none, and the ages.
    fn taken_apart(&self, state: u64) -> (usize, Vec<u64>) {
        let n = self.parts.len() as u64 + 1;
        let mut rest = state / n;
        let mut ages = vec![];
        for p in &self.parts {
            ages.push(rest % p.life + 1);
            rest /= p.life;
        }
        ((state % n) as usize, ages)
    }

    fn number(&self, failed: usize, ages: &[u64]) -> u64 {
        let mut code = 0;
        for (p, age) in self.parts.iter().zip(ages).rev() {
            code = code * p.life + (age - 1);
        }
        code * (self.parts.len() as u64 + 1) + failed as u64
    }

    // The least sum of arcs over all sequences of the parts that are left to reach.
    fn least(&self, portfolio: u64, reached: u64) -> Option<u64> {
        if portfolio == reached {
            return Some(0);
        }
        let mut best: Option<u64> = None;
        for (from, to, cents) in &self.arcs {
            let bit = 1 << (to - 1);
            let open = *from == 0 || reached & (1 << (from - 1)) != 0;
            if open && portfolio & bit != 0 && reached & bit == 0 {
                if let Some(rest) = self.least(portfolio, reached | bit) {
                    let all = rest + cents;
                    best = Some(best.map_or(all, |b| b.min(all)));
                }
            }
        }
        best
    }

    // The bill and the outcomes of a feasible pair.
    fn window(&self, state: u64, portfolio: u64) -> Option<(u64, u64, Vec<u64>)> {
        if state >= self.states() || portfolio >= 1 << self.parts.len() {
            return None;
        }
        let (failed, ages) = self.taken_apart(state);
        let renewed = |i: usize| portfolio & (1 << i) != 0;
        if failed > 0 && !renewed(failed - 1) {
            return None;
        }
        let mut failing = 0;
        let mut next = vec![];
        for (i, p) in self.parts.iter().enumerate() {
            if ages[i] >= p.life && !renewed(i) {
                return None;
            }
            let start = if renewed(i) { 0 } else { ages[i] };
            failing += p.hazards[start as usize];
            next.push(start + 1);
        }
        if failing > WHOLE || WHOLE - failing < self.threshold {
            return None;
        }
        let orders = self.least(portfolio, 0)?;
        let (mut seconds, mut cents) = (0, 0);
        if portfolio != 0 {
            cents = self.setup + orders;
            if failed > 0 {
                cents += self.alarm + self.parts[failed - 1].surplus;
                seconds = self.parts[failed - 1].dark;
            }
        }
        let outcomes = (0..=self.parts.len()).map(|k| self.number(k, &next)).collect();
        Some((seconds, cents, outcomes))
    }
}

// The log: where it stands, what it holds, and its notes counted and added up.
#[derive(Clone, Copy, PartialEq)]
enum Stage {
    None,
    Open,
    Issued,
    OnAir,
}

struct Log<'a> {
    chain: &'a Chain,
    policy: &'a [u64],
    stage: Stage,
    state: u64,
    held: u64,
    windows: u64,
    seconds: u64,
    cents: u64,
    line: u64,
}

impl Log<'_> {
    fn totals(&self) -> String {
        format!("{},{},{},{}", self.state, self.windows, self.seconds, self.cents)
    }

    fn not_due(&self) -> String {
        format!("refused=2,{}", self.line)
    }

    // The reply to one more line.
    fn reply(&mut self, line: &str) -> String {
        self.line += 1;
        if line.len() > 200 || !line.bytes().all(|b| (32..=126).contains(&b)) {
            return format!("refused=1,{}", self.line);
        }
        let Some((key, value)) = line.split_once('=').filter(|(key, _)| !key.is_empty()) else {
            return format!("refused=1,{}", self.line);
        };
        match (self.stage, key) {
            (Stage::None, "state") => match number(value) {
                None => format!("refused=3,{}", self.line),
                Some(s) if s >= self.chain.states() => format!("refused=21,{s}"),
                Some(s) => {
                    self.state = s;
                    self.stage = Stage::Open;
                    format!("open={}", self.totals())
                }
            },
            (Stage::Open, "call") if value == "issue" => {
                if self.windows >= MOST_WINDOWS {
                    return "refused=24,0".into();
                }
                self.held = self.policy[self.state as usize];
                self.stage = Stage::Issued;
                format!("issued={},{}", self.totals(), self.held)
            }
            (Stage::Issued, "call") if value == "carry-out" => {
                let (seconds, cents, _) = self.chain.window(self.state, self.held).expect("feasible");
                self.windows += 1;
                self.seconds += seconds;
                self.cents += cents;
                self.stage = Stage::OnAir;
                format!("on-air={},{}", self.totals(), self.held)
            }
            (Stage::OnAir, "report") => match number(value) {
                None => format!("refused=3,{}", self.line),
                Some(k) => {
                    let (_, _, outcomes) = self.chain.window(self.state, self.held).expect("feasible");
                    match outcomes.get(k as usize) {
                        None => format!("refused=23,{k}"),
                        Some(next) => {
                            self.state = *next;
                            self.stage = Stage::Open;
                            format!("open={}", self.totals())
                        }
                    }
                }
            },
            _ => self.not_due(),
        }
    }
}

// A number without needless zeros, of at most 32 bits.
fn number(value: &str) -> Option<u64> {
    let plain = !value.is_empty() && value.bytes().all(|b| b.is_ascii_digit()) && (value == "0" || !value.starts_with('0'));
    value.parse().ok().filter(|n| plain && *n <= u32::MAX.into())
}

// What automation says next: mostly the call that is due, now and then something else.
fn next_line(r: &mut Rng, log: &Log) -> String {
    match r.below(24) {
        0 => ["call=issue", "call=carry-out", "report=0", "state=0"][r.below(4) as usize].into(),
        1 => ["call=", "call=Issue", "report=", "report=01", "report=-1", "=1", "x", "report=4294967296", "end=plant", ""][r.below(10) as usize].into(),
        2 => format!("report={}", r.below(40)),
        _ => match log.stage {
            Stage::None => format!("state={}", r.below(log.chain.states() + 3)),
            Stage::Open => "call=issue".into(),
            Stage::Issued => "call=carry-out".into(),
            Stage::OnAir => format!("report={}", r.below(log.chain.parts.len() as u64 + 1)),
        },
    }
}

// The policy of the plan that the console writes.
fn plan_of(console: &str, request: &str) -> Vec<u64> {
    let mut child = Command::new(console).stdin(Stdio::piped()).stdout(Stdio::piped()).stderr(Stdio::null()).spawn().expect("the console starts");
    child.stdin.take().unwrap().write_all(request.as_bytes()).unwrap();
    let mut text = String::new();
    child.stdout.take().unwrap().read_to_string(&mut text).unwrap();
    child.wait().unwrap();
    text.lines().filter_map(|l| l.strip_prefix("row=")).map(|row| row.split(',').nth(1).unwrap().parse().unwrap()).collect()
}

// Says the lines; the replies that are due go to the other side, which compares.
fn talk(mut to: BufWriter<ChildStdin>, lines: Receiver<String>) {
    for line in lines {
        to.write_all(line.as_bytes()).unwrap();
        to.write_all(b"\n").unwrap();
    }
}

fn main() {
    let args: Vec<String> = std::env::args().collect();
    let [_, console, book, seed, windows] = &args[..] else {
        eprintln!("windows CONSOLE BOOK SEED WINDOWS");
        std::process::exit(2);
    };
    let mut r = Rng(seed.parse::<u64>().unwrap().wrapping_mul(0x9E37_79B9_7F4A_7C15) | 1);
    let windows: u64 = windows.parse().unwrap();
    let chain = random_chain(&mut r);
    let request = format!("{}tariff={}\nsweeps={}\n", chain.text(), if r.below(2) == 0 { "airfirst".into() } else { format!("priced,{}", r.below(50)) }, r.below(20));
    let policy = plan_of(console, &request);
    assert_eq!(policy.len() as u64, chain.states(), "the console plans");
    let mut child = Command::new(book).stdin(Stdio::piped()).stdout(Stdio::piped()).stderr(Stdio::null()).spawn().expect("the book starts");
    let mut to = BufWriter::new(child.stdin.take().unwrap());
    to.write_all(request.as_bytes()).unwrap();
    let (say, lines) = sync_channel(1024);
    let (expect, expected) = sync_channel::<(String, String)>(1 << 16);
    let talker = std::thread::spawn(move || talk(to, lines));
    let reader = std::thread::spawn(move || {
        let mut replies = BufReader::new(child.stdout.take().unwrap()).lines();
        for key in ["low=", "high=", "top=", "bottom="] {
            let line = replies.next().unwrap().unwrap();
            assert!(line.starts_with(key), "the finding: {line}");
        }
        let mut compared = 0u64;
        for (line, due) in expected {
            let reply = replies.next().unwrap_or_else(|| panic!("no reply to {line}")).unwrap();
            assert_eq!(reply, due, "the reply to {line}");
            compared += 1;
        }
        assert!(replies.next().is_none(), "nothing more is said");
        assert!(child.wait().unwrap().success());
        compared
    });
    let mut log = Log { chain: &chain, policy: &policy, stage: Stage::None, state: 0, held: 0, windows: 0, seconds: 0, cents: 0, line: request.lines().count() as u64 };
    let mut past_the_last = 0;
    while log.windows < windows || log.stage != Stage::Open || past_the_last < 5 {
        let line = if log.windows >= windows && log.stage == Stage::Open { past_the_last += 1; "call=issue".into() } else { next_line(&mut r, &log) };
        let due = log.reply(&line);
        if windows < MOST_WINDOWS && past_the_last > 0 {
            past_the_last = 5;
        }
        expect.send((line.clone(), due)).unwrap();
        say.send(line).unwrap();
        if windows < MOST_WINDOWS && past_the_last > 0 {
            break;
        }
    }
    drop(say);
    drop(expect);
    talker.join().unwrap();
    let compared = reader.join().unwrap();
    println!("seed {seed}: {} windows, {compared} replies, no difference; {} seconds, {} cents", log.windows, log.seconds, log.cents);
}
