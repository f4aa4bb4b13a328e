// The texts of the largest plants, and a plain reader of lawful texts for the hand-written side.
use crate::hand::{Arc, Chain, MOST_GRADES, MOST_LIFE, Pair, Part, Unit};

// A chain of parts with these lives, and an arc from the door and from every part to every other part.
pub fn chain_of(lives: &[usize]) -> String {
    let parts = lives.len();
    let mut text = format!("kind=chain\nparts={parts}\nthreshold=4000\nsetup=1200\nalarm=300\n");
    for (i, life) in lives.iter().enumerate() {
        let hazards: Vec<String> = (0..*life).map(|age| (40 + 30 * i + 55 * age * (i + 1)).to_string()).collect();
        let (surplus, dark) = (700 + 130 * i, 600 + 45 * i);
        text += &format!("part={}\nlife={life}\nhazard={}\nsurplus={surplus}\ndark={dark}\n", i + 1, hazards.join(","));
    }
    for from in 0..=parts {
        for to in (1..=parts).filter(|to| *to != from) {
            text += &format!("arc={from},{to},{}\n", 200 + 37 * ((5 * from + 3 * to) % 11));
        }
    }
    text + "end=plant\n"
}

// A pair of units with so many grades each, all of whose rows lead to every worse grade.
pub fn pair_of(grades: usize) -> String {
    let mut text = String::from("kind=pair\nthreshold=3000\nsetup=900\ninspect=50\n");
    for unit in 1..=2 {
        text += &format!("unit={unit}\ngrades={grades}\n");
        for grade in 1..grades {
            let mut row = vec![0; grades];
            row[grade..].fill(2 + unit + grade / 2);
            row[grade - 1] = 100 - row.iter().sum::<usize>();
            let row: Vec<String> = row.iter().map(usize::to_string).collect();
            text += &format!("row={}\n", row.join(","));
        }
        text += &format!("planned={}\nforced={}\ndark={}\n", 2000 * unit, 3500 * unit, 400 + unit);
    }
    text + "end=plant\n"
}

fn number(value: &str) -> Option<u32> {
    value.parse().ok()
}

fn list<const N: usize>(value: &str) -> Option<[u32; N]> {
    let mut numbers = [0; N];
    for (i, member) in value.split(',').enumerate() {
        *numbers.get_mut(i)? = number(member)?;
    }
    Some(numbers)
}

pub fn read_chain(text: &str) -> Option<Chain> {
    let (mut threshold, mut setup, mut alarm) = (0, 0, 0);
    let mut parts: Vec<Part> = Vec::new();
    let mut arcs = Vec::new();
    for line in text.lines() {
        let (key, value) = line.split_once('=')?;
        match key {
            "threshold" => threshold = number(value)?,
            "setup" => setup = number(value)?,
            "alarm" => alarm = number(value)?,
            "part" => parts.push(Part { life: 0, hazards: [0; MOST_LIFE], surplus: 0, dark: 0 }),
            "life" => parts.last_mut()?.life = number(value)? as usize,
            "hazard" => parts.last_mut()?.hazards = list(value)?,
            "surplus" => parts.last_mut()?.surplus = number(value)?,
            "dark" => parts.last_mut()?.dark = number(value)?,
            "arc" => {
                let [from, to, cents] = list(value)?;
                arcs.push(Arc { from: from as usize, to: to as usize, cents });
            }
            _ => {}
        }
    }
    Chain::new(threshold, setup, alarm, parts, &arcs)
}

pub fn read_pair(text: &str) -> Option<Pair> {
    let unit = Unit { grades: 0, rows: [[0; MOST_GRADES]; MOST_GRADES], planned: 0, forced: 0, dark: 0 };
    let mut pair = Pair { threshold: 0, setup: 0, inspect: 0, one: unit, two: unit };
    let (mut unit, mut rows) = (0, 0);
    for line in text.lines() {
        let (key, value) = line.split_once('=')?;
        let open = if unit == 2 { &mut pair.two } else { &mut pair.one };
        match key {
            "threshold" => pair.threshold = number(value)?,
            "setup" => pair.setup = number(value)?,
            "inspect" => pair.inspect = number(value)?,
            "unit" => (unit, rows) = (number(value)?, 0),
            "grades" => open.grades = number(value)? as usize,
            "row" => {
                *open.rows.get_mut(rows)? = list(value)?;
                rows += 1;
            }
            "planned" => open.planned = number(value)?,
            "forced" => open.forced = number(value)?,
            "dark" => open.dark = number(value)?,
            _ => {}
        }
    }
    Some(pair)
}
