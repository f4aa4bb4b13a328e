// An independent version of the plants, by brute force: every answer is worked out from the text of the plant alone, work
// orders by trying all sequences. Build: rustc -O tools/reference.rs -o target/reference
//   reference make SEED      writes the text of a random plant
//   reference ask < TEXT     writes the answers to every question, as the program `questions` does
use std::collections::HashMap;
use std::io::{BufWriter, Read, Write};

const TEN_THOUSAND: u64 = 10_000;
const MOST_STATES: u64 = 4096;
const MOST_CENTS: u64 = 1_000_000;

struct Rng(u64);

impl Rng {
    fn next(&mut self) -> u64 {
        self.0 ^= self.0 << 13;
        self.0 ^= self.0 >> 7;
        self.0 ^= self.0 << 17;
        self.0
    }

    fn below(&mut self, n: u64) -> u64 {
        self.next() % n
    }
}

// Cents of a line: now and then the most there may be.
fn cents(r: &mut Rng, usual: u64) -> u64 {
    if r.below(12) == 0 {
        MOST_CENTS
    } else {
        r.below(usual)
    }
}

// Lives of at most 20 windows, few enough for 4,096 states.
fn random_lives(r: &mut Rng, parts: u64) -> Vec<u64> {
    let mut room = MOST_STATES / (parts + 1);
    let mut lives = vec![];
    for _ in 0..parts {
        let most = if r.below(3) == 0 { 20 } else { 4 };
        let life = 1 + r.below(room.min(most));
        room /= life;
        lives.push(life);
    }
    lives
}

// The threshold that a survival of `met` meets exactly, the one that it just misses, or else `other`.
fn near(r: &mut Rng, met: u64, other: u64) -> u64 {
    match r.below(8) {
        0 | 1 => met,
        2 => met + 1,
        _ => other,
    }
}

// Any threshold, with hazards most of which are not too great for it; or one that full renewal just meets or just misses.
fn random_chain(r: &mut Rng) -> String {
    let parts = 1 + r.below(6);
    let mut threshold = r.below(TEN_THOUSAND + 1);
    let usual = (TEN_THOUSAND - threshold) * 3 / (2 * parts) + 1;
    let lives = random_lives(r, parts);
    let mut survival = TEN_THOUSAND as i64;
    let mut text = String::new();
    for (i, life) in (1..).zip(&lives) {
        let hazards: Vec<u64> = (0..*life).map(|age| r.below(usual + usual * age / 3).min(TEN_THOUSAND)).collect();
        survival -= hazards[0] as i64;
        let hazards: Vec<String> = hazards.iter().map(|h| h.to_string()).collect();
        text += &format!(
            "part={i}\nlife={life}\nhazard={}\nsurplus={}\ndark={}\n",
            hazards.join(","),
            cents(r, 3000),
            r.below(TEN_THOUSAND + 1)
        );
    }
    if survival >= 0 {
        threshold = near(r, survival as u64, threshold).min(TEN_THOUSAND);
    }
    for from in 0..=parts {
        for to in 1..=parts {
            if from != to && r.below(8) < if from == 0 { 7 } else { 4 } {
                text += &format!("arc={from},{to},{}\n", cents(r, 900));
            }
        }
    }
    let (setup, alarm) = (cents(r, 2000), cents(r, 500));
    format!("kind=chain\nparts={parts}\nthreshold={threshold}\nsetup={setup}\nalarm={alarm}\n{text}end=plant\n")
}

// A row of hundredths from grade `g`, and how many of them stay below the failed grade.
fn random_row(r: &mut Rng, g: usize, grades: usize) -> (Vec<u64>, u64) {
    let mut left = 100;
    let mut row = vec![0; grades];
    for h in g - 1..grades - 1 {
        row[h] = r.below(left + 1);
        left -= row[h];
    }
    row[grades - 1] = left;
    (row, 100 - left)
}

// Any threshold, or one that full renewal meets, just meets or just misses.
fn random_pair(r: &mut Rng) -> String {
    let mut survival = 1;
    let mut text = String::new();
    for u in 1..=2 {
        let grades = 2 + r.below(7) as usize;
        text += &format!("unit={u}\ngrades={grades}\n");
        for g in 1..grades {
            let (row, staying) = random_row(r, g, grades);
            if g == 1 {
                survival *= staying;
            }
            let row: Vec<String> = row.iter().map(|x| x.to_string()).collect();
            text += &format!("row={}\n", row.join(","));
        }
        text += &format!("planned={}\nforced={}\ndark={}\n", cents(r, 5000), cents(r, 9000), r.below(5001));
    }
    let most = if r.below(2) == 0 { survival } else { TEN_THOUSAND };
    let other = r.below(most + 1);
    let threshold = near(r, survival, other).min(TEN_THOUSAND);
    let (setup, inspect) = (cents(r, 2000), cents(r, 300));
    format!("kind=pair\nthreshold={threshold}\nsetup={setup}\ninspect={inspect}\n{text}end=plant\n")
}

// What a pair of state and portfolio answers: seconds, cents and the outcomes, or nothing where it is not feasible.
type Answer = Option<(u64, u64, Vec<(u64, u64)>)>;

struct Plant {
    states: u64,
    portfolios: u64,
    ask: Box<dyn Fn(u64, u64) -> Answer>,
}

fn pairs_of(text: &str) -> Vec<(String, String)> {
    text.lines().map(|l| l.split_once('=').unwrap()).map(|(k, v)| (k.into(), v.into())).collect()
}

fn numbers(v: &str) -> Vec<u64> {
    v.split(',').map(|n| n.parse().unwrap()).collect()
}

// The cheapest way to do all parts of `left`, each from the door or from a part that is done.
fn cheapest(arcs: &HashMap<(u64, u64), u64>, done: &mut Vec<u64>, left: &[u64]) -> Option<u64> {
    if left.is_empty() {
        return Some(0);
    }
    let mut best = None;
    for (i, &to) in left.iter().enumerate() {
        let mut rest = left.to_vec();
        rest.remove(i);
        let mut sources = done.clone();
        sources.push(0);
        for from in sources {
            if let Some(&cents) = arcs.get(&(from, to)) {
                done.push(to);
                if let Some(more) = cheapest(arcs, done, &rest) {
                    let sum = cents + more;
                    best = Some(best.map_or(sum, |b: u64| b.min(sum)));
                }
                done.pop();
            }
        }
    }
    best
}

fn chain(lines: &[(String, String)]) -> Plant {
    let mut head = HashMap::new();
    let (mut lives, mut hazards, mut surplus, mut dark) = (vec![], vec![], vec![], vec![]);
    let mut arcs = HashMap::new();
    for (k, v) in lines {
        match k.as_str() {
            "life" => lives.push(numbers(v)[0]),
            "hazard" => hazards.push(numbers(v)),
            "surplus" => surplus.push(numbers(v)[0]),
            "dark" => dark.push(numbers(v)[0]),
            "arc" => {
                let a = numbers(v);
                arcs.insert((a[0], a[1]), a[2]);
            }
            "kind" | "part" | "end" => {}
            _ => {
                head.insert(k.clone(), numbers(v)[0]);
            }
        }
    }
    let n = head["parts"];
    let states = (n + 1) * lives.iter().product::<u64>();
    let mut orders = HashMap::new();
    for x in 0..1u64 << n {
        let left: Vec<u64> = (1..=n).filter(|i| x >> (i - 1) & 1 == 1).collect();
        orders.insert(x, cheapest(&arcs, &mut vec![], &left));
    }
    let ask = move |s: u64, x: u64| -> Answer {
        if s >= states || x >= 1 << n {
            return None;
        }
        let failed = s % (n + 1);
        let mut code = s / (n + 1);
        let mut ages = vec![];
        for life in &lives {
            ages.push(code % life + 1);
            code /= life;
        }
        let renewed = |i: u64| x >> (i - 1) & 1 == 1;
        if failed > 0 && !renewed(failed) {
            return None;
        }
        let mut start = vec![];
        for i in 1..=n {
            let at = (i - 1) as usize;
            if !renewed(i) && ages[at] == lives[at] {
                return None;
            }
            start.push(if renewed(i) { 0 } else { ages[at] });
        }
        let order = orders[&x]?;
        let hazard: Vec<u64> = (0..n as usize).map(|i| hazards[i][start[i] as usize]).collect();
        let sum: u64 = hazard.iter().sum();
        if sum > 10000 || 10000 - sum < head["threshold"] {
            return None;
        }
        let mut cents = 0;
        if x > 0 {
            cents = head["setup"] + order;
            if failed > 0 {
                cents += head["alarm"] + surplus[(failed - 1) as usize];
            }
        }
        let seconds = if failed > 0 { dark[(failed - 1) as usize] } else { 0 };
        let mut base = 0;
        let mut width = n + 1;
        for (age, life) in start.iter().zip(&lives) {
            base += age * width;
            width *= life;
        }
        let mut outcomes = vec![(base, 10000 - sum)];
        for (i, h) in hazard.iter().enumerate() {
            outcomes.push((base + i as u64 + 1, *h));
        }
        Some((seconds, cents, outcomes))
    };
    Plant { states, portfolios: 1 << n, ask: Box::new(ask) }
}

fn pair(lines: &[(String, String)]) -> Plant {
    let mut head = HashMap::new();
    let mut units: Vec<HashMap<String, u64>> = vec![];
    let mut rows: Vec<Vec<Vec<u64>>> = vec![];
    for (k, v) in lines {
        match k.as_str() {
            "kind" | "end" => {}
            "unit" => {
                units.push(HashMap::new());
                rows.push(vec![]);
            }
            "row" => rows.last_mut().unwrap().push(numbers(v)),
            _ if units.is_empty() => {
                head.insert(k.clone(), numbers(v)[0]);
            }
            _ => {
                units.last_mut().unwrap().insert(k.clone(), numbers(v)[0]);
            }
        }
    }
    let (g1, g2) = (units[0]["grades"], units[1]["grades"]);
    let ask = move |s: u64, x: u64| -> Answer {
        if s >= g1 * g2 || x >= 4 {
            return None;
        }
        let grade = [s % g1, s / g1];
        let grades = [g1, g2];
        let (mut seconds, mut cents, mut survival) = (0, head["inspect"], 1);
        let mut moved = vec![];
        for u in 0..2 {
            let failed = grade[u] + 1 == grades[u];
            let renewed = x >> u & 1 == 1;
            if failed {
                if !renewed {
                    return None;
                }
                seconds += units[u]["dark"];
            }
            if renewed {
                cents += units[u][if failed { "forced" } else { "planned" }];
            }
            let row = rows[u][if renewed { 0 } else { grade[u] as usize }].clone();
            survival *= row[..row.len() - 1].iter().sum::<u64>();
            moved.push(row);
        }
        if survival < head["threshold"] {
            return None;
        }
        if x > 0 {
            cents += head["setup"];
        }
        let outcomes = (0..g1 * g2).map(|k| (k, moved[0][(k % g1) as usize] * moved[1][(k / g1) as usize])).collect();
        Some((seconds, cents, outcomes))
    };
    Plant { states: g1 * g2, portfolios: 4, ask: Box::new(ask) }
}

// Whether the plant may be made: few enough states, and everything can be renewed.
fn refusal(plant: &Plant, line: usize) -> Option<String> {
    if plant.states > MOST_STATES {
        return Some(format!("refused=4,{line}"));
    }
    if (plant.ask)(0, plant.portfolios - 1).is_none() {
        return Some(format!("refused=6,{line}"));
    }
    None
}

// The numbers to ask for: 0 up to the first that is out of range, and the greatest that there is.
fn asked(count: u64) -> impl Iterator<Item = u64> {
    (0..=count).chain([u64::MAX])
}

fn tell(out: &mut impl Write, s: u64, x: u64, answer: Answer) -> std::io::Result<()> {
    let outcomes = match answer {
        Some((seconds, cents, outcomes)) => {
            writeln!(out, "{s} {x} true {seconds} {cents} {}", outcomes.len())?;
            outcomes
        }
        None => {
            writeln!(out, "{s} {x} false absent 0")?;
            vec![]
        }
    };
    for k in asked(outcomes.len() as u64) {
        match outcomes.get(k as usize) {
            Some((next, weight)) => writeln!(out, " {k} {next} {weight}")?,
            None => writeln!(out, " {k} absent")?,
        }
    }
    Ok(())
}

fn ask(text: &str) -> std::io::Result<()> {
    let mut out = BufWriter::new(std::io::stdout().lock());
    let lines = pairs_of(text);
    let plant = if lines[0].1 == "chain" { chain(&lines) } else { pair(&lines) };
    if let Some(refused) = refusal(&plant, lines.len()) {
        return writeln!(out, "{refused}");
    }
    writeln!(out, "{} states, {} portfolios", plant.states, plant.portfolios)?;
    for s in asked(plant.states) {
        for x in asked(plant.portfolios) {
            tell(&mut out, s, x, (plant.ask)(s, x))?;
        }
    }
    out.flush()
}

fn main() {
    let args: Vec<String> = std::env::args().collect();
    match args.get(1).map(String::as_str) {
        Some("make") => {
            let seed: u64 = args[2].parse().unwrap();
            let mut r = Rng(seed.wrapping_mul(0x9E3779B97F4A7C15) | 1);
            r.next();
            print!("{}", if seed % 2 == 0 { random_chain(&mut r) } else { random_pair(&mut r) });
        }
        Some("ask") => {
            let mut text = String::new();
            std::io::stdin().read_to_string(&mut text).unwrap();
            ask(&text).unwrap();
        }
        _ => eprintln!("usage: reference make SEED | reference ask"),
    }
}
