// Hands the console random and damaged texts and holds every answer to its form: a whole plan, or one refusal.
// Build: rustc -O tools/fuzz.rs -o target/fuzz
//   fuzz CONSOLE REFERENCE LINES [SEED]     until LINES lines went in; REFERENCE is tools/reference.rs, built
use std::io::Write;
use std::process::{Command, Stdio};

struct Rng(u64);

impl Rng {
    fn next(&mut self) -> u64 {
        self.0 ^= self.0 << 13;
        self.0 ^= self.0 >> 7;
        self.0 ^= self.0 << 17;
        self.0
    }

    fn below(&mut self, n: usize) -> usize {
        (self.next() % n as u64) as usize
    }
}

fn plant(reference: &str, seed: u64) -> Vec<u8> {
    Command::new(reference).arg("make").arg(seed.to_string()).output().unwrap().stdout
}

// One random damage to the text.
fn damage(r: &mut Rng, text: &mut Vec<u8>) {
    if text.is_empty() {
        return;
    }
    let at = r.below(text.len());
    match r.below(8) {
        0 => text[at] = r.next() as u8,
        1 => text.insert(at, r.next() as u8),
        2 => {
            text.remove(at);
        }
        3 => text.truncate(at),
        4 => text[at] = b"0123456789,=-\n"[r.below(14)],
        5 => text.insert(at, b"0123456789,=-\n"[r.below(14)]),
        6 => {
            let mut lines: Vec<Vec<u8>> = text.split_inclusive(|b| *b == b'\n').map(|l| l.to_vec()).collect();
            let (i, j) = (r.below(lines.len()), r.below(lines.len()));
            lines.swap(i, j);
            *text = lines.concat();
        }
        _ => {
            let lines: Vec<Vec<u8>> = text.split_inclusive(|b| *b == b'\n').map(|l| l.to_vec()).collect();
            let i = r.below(lines.len());
            let mut twice = lines.clone();
            twice.insert(i, lines[i].clone());
            *text = twice.concat();
        }
    }
}

fn is_plan(out: &str) -> bool {
    out.starts_with("states=") && out.ends_with("\nend=plan\n")
}

fn is_refusal(out: &str) -> bool {
    let Some(rest) = out.strip_prefix("refused=").and_then(|r| r.strip_suffix('\n')) else {
        return false;
    };
    let Some((number, place)) = rest.split_once(',') else {
        return false;
    };
    matches!(number.parse(), Ok(1..=8u32)) && matches!(place.parse::<u64>(), Ok(1..))
}

fn main() {
    let args: Vec<String> = std::env::args().collect();
    let (console, reference) = (&args[1], &args[2]);
    let wanted: usize = args[3].parse().unwrap();
    let seed: u64 = args.get(4).map_or(1, |s| s.parse().unwrap());
    let mut r = Rng(seed.wrapping_mul(0x9E3779B97F4A7C15) | 1);
    let plants: Vec<Vec<u8>> = (0..400).map(|k| plant(reference, seed * 1000 + k)).collect();
    let (mut lines, mut runs, mut plans) = (0, 0, 0);
    while lines < wanted {
        let mut text = plants[r.below(plants.len())].clone();
        let tariff = if r.below(2) == 0 { format!("tariff=priced,{}\n", r.below(1010)) } else { "tariff=airfirst\n".into() };
        text.extend_from_slice(tariff.as_bytes());
        text.extend_from_slice(format!("sweeps={}\n", r.below(6)).as_bytes());
        for _ in 0..r.below(4) {
            damage(&mut r, &mut text);
        }
        lines += text.iter().filter(|b| **b == b'\n').count() + 1;
        let mut child = Command::new(console).stdin(Stdio::piped()).stdout(Stdio::piped()).stderr(Stdio::null()).spawn().unwrap();
        let _ = child.stdin.take().unwrap().write_all(&text);
        let done = child.wait_with_output().unwrap();
        let out = String::from_utf8_lossy(&done.stdout);
        if !done.status.success() || !(is_plan(&out) || is_refusal(&out)) {
            std::fs::write("fuzz-failure.txt", &text).unwrap();
            println!("no answer after {runs} runs: the text is in fuzz-failure.txt");
            std::process::exit(1);
        }
        runs += 1;
        plans += is_plan(&out) as usize;
    }
    println!("{lines} lines in {runs} texts, each answered: {plans} plans, {} refusals", runs - plans);
}
