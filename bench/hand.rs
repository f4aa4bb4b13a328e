// The hand-written side of the benchmarks: the same plants, tariffs and planner in ordinary Rust, behind the same
// questions and operations. Nothing here is proved, and nothing is shared with the proved code.

pub const MOST_STATES: usize = 4096;
pub const WHOLE: u32 = 10_000;
pub const HUNDRED: u32 = 100;
pub const MOST_PARTS: usize = 6;
pub const MOST_LIFE: usize = 20;
pub const MOST_GRADES: usize = 8;
pub const MOST_SECONDS: u32 = 10_000;
pub const MOST_CENTS: u32 = 10_000_000;
pub const MOST_REACH: u64 = 1_000_000_000_000_000_000;
pub const MOST_VALUE: u64 = 1_000_000_000_000;
pub const MOST_FACTOR: u32 = 10_000;
pub const MOST_SWEEPS: u32 = 1000;

#[derive(Clone, Copy, PartialEq, Eq, Debug)]
pub struct Bill {
    pub seconds: u32,
    pub cents: u32,
}

#[derive(Clone, Copy, PartialEq, Eq, Debug)]
pub struct Outcome {
    pub next: usize,
    pub weight: u32,
}

pub trait Plant {
    fn states(&self) -> usize;
    fn portfolios(&self) -> usize;
    fn feasible(&self, state: usize, portfolio: usize) -> bool;
    fn bill(&self, state: usize, portfolio: usize) -> Option<Bill>;
    fn outcome_count(&self, state: usize, portfolio: usize) -> usize;
    fn outcome(&self, state: usize, portfolio: usize, k: usize) -> Option<Outcome>;
}

// ---- the chain

#[derive(Clone, Copy)]
pub struct Part {
    pub life: usize,
    pub hazards: [u32; MOST_LIFE],
    pub surplus: u32,
    pub dark: u32,
}

#[derive(Clone, Copy)]
pub struct Arc {
    pub from: usize,
    pub to: usize,
    pub cents: u32,
}

pub struct Chain {
    threshold: u32,
    setup: u32,
    alarm: u32,
    parts: Vec<Part>,
    states: usize,
    // The least cents of a work order for each portfolio.
    least: Vec<Option<u32>>,
}

// How the parts start a window: their ages, the next state when none fails, and the weight of that.
struct Window {
    starts: [usize; MOST_PARTS],
    next: usize,
    quiet: u32,
}

// The cheapest arc to a part from the door or from a part that is done.
fn cheapest_arc(arcs: &[Arc], done: usize, part: usize) -> Option<u32> {
    arcs.iter()
        .filter(|a| a.to == part && (a.from == 0 || done >> (a.from - 1) & 1 == 1))
        .map(|a| a.cents)
        .min()
}

// The least work order of each portfolio, from those with one part less.
fn least_work_orders(parts: usize, arcs: &[Arc]) -> Vec<Option<u32>> {
    let mut least = vec![Some(0); 1 << parts];
    for portfolio in 1..1 << parts {
        least[portfolio] = (1..=parts)
            .filter(|part| portfolio >> (part - 1) & 1 == 1)
            .filter_map(|part| {
                let done = portfolio & !(1 << (part - 1));
                Some(least[done]? + cheapest_arc(arcs, done, part)?)
            })
            .min();
    }
    least
}

impl Chain {
    pub fn new(threshold: u32, setup: u32, alarm: u32, parts: Vec<Part>, arcs: &[Arc]) -> Option<Chain> {
        let states = (parts.len() + 1) * parts.iter().map(|p| p.life).product::<usize>();
        let least = least_work_orders(parts.len(), arcs);
        let chain = Chain { threshold, setup, alarm, parts, states, least };
        let everything = chain.portfolios() - 1;
        (states <= MOST_STATES && chain.feasible(0, everything)).then_some(chain)
    }

    // The window of a pair, absent exactly when the pair is not feasible.
    fn window(&self, state: usize, portfolio: usize) -> Option<Window> {
        if state >= self.states || portfolio >= self.portfolios() {
            return None;
        }
        let failed = state % (self.parts.len() + 1);
        if failed > 0 && portfolio >> (failed - 1) & 1 == 0 {
            return None;
        }
        self.least[portfolio]?;
        let mut code = state / (self.parts.len() + 1);
        let mut starts = [0; MOST_PARTS];
        let (mut next, mut width, mut hazards) = (0, self.parts.len() + 1, 0);
        for (i, part) in self.parts.iter().enumerate() {
            let age = code % part.life + 1;
            code /= part.life;
            let start = if portfolio >> i & 1 == 1 {
                0
            } else if age == part.life {
                return None;
            } else {
                age
            };
            starts[i] = start;
            next += start * width;
            width *= part.life;
            hazards += part.hazards[start];
        }
        let quiet = WHOLE.checked_sub(hazards)?;
        (quiet >= self.threshold).then_some(Window { starts, next, quiet })
    }
}

impl Plant for Chain {
    fn states(&self) -> usize {
        self.states
    }

    fn portfolios(&self) -> usize {
        self.least.len()
    }

    fn feasible(&self, state: usize, portfolio: usize) -> bool {
        self.window(state, portfolio).is_some()
    }

    fn bill(&self, state: usize, portfolio: usize) -> Option<Bill> {
        self.window(state, portfolio)?;
        let failed = match state % (self.parts.len() + 1) {
            0 => None,
            part => Some(&self.parts[part - 1]),
        };
        let charge = failed.map_or(0, |part| self.alarm + part.surplus);
        Some(Bill {
            seconds: failed.map_or(0, |part| part.dark),
            cents: if portfolio == 0 { 0 } else { self.setup + self.least[portfolio]? + charge },
        })
    }

    fn outcome_count(&self, state: usize, portfolio: usize) -> usize {
        if self.feasible(state, portfolio) { self.parts.len() + 1 } else { 0 }
    }

    fn outcome(&self, state: usize, portfolio: usize, k: usize) -> Option<Outcome> {
        let window = self.window(state, portfolio)?;
        if k > self.parts.len() {
            return None;
        }
        let weight = match k {
            0 => window.quiet,
            part => self.parts[part - 1].hazards[window.starts[part - 1]],
        };
        Some(Outcome { next: window.next + k, weight })
    }
}

// ---- the pair

#[derive(Clone, Copy)]
pub struct Unit {
    pub grades: usize,
    pub rows: [[u32; MOST_GRADES]; MOST_GRADES],
    pub planned: u32,
    pub forced: u32,
    pub dark: u32,
}

impl Unit {
    fn failed(&self, grade: usize) -> bool {
        grade + 1 == self.grades
    }

    // The grade, from 0, by whose row the unit moves: absent exactly when it is failed and not renewed.
    fn row(&self, renewed: bool, grade: usize) -> Option<&[u32; MOST_GRADES]> {
        if renewed {
            Some(&self.rows[0])
        } else if self.failed(grade) {
            None
        } else {
            Some(&self.rows[grade])
        }
    }

    fn staying(&self, row: &[u32; MOST_GRADES]) -> u32 {
        HUNDRED - row[self.grades - 1]
    }

    fn renewal_cents(&self, renewed: bool, grade: usize) -> u32 {
        match (renewed, self.failed(grade)) {
            (false, _) => 0,
            (true, false) => self.planned,
            (true, true) => self.forced,
        }
    }

    fn dark_seconds(&self, grade: usize) -> u32 {
        if self.failed(grade) { self.dark } else { 0 }
    }
}

pub struct Pair {
    pub threshold: u32,
    pub setup: u32,
    pub inspect: u32,
    pub one: Unit,
    pub two: Unit,
}

const PAIR_PORTFOLIOS: usize = 4;

impl Pair {
    fn renewals(portfolio: usize) -> (bool, bool) {
        (portfolio & 1 != 0, portfolio & 2 != 0)
    }

    // The rows by which the units move, absent exactly when the pair is not feasible.
    fn rows(&self, state: usize, portfolio: usize) -> Option<(&[u32; MOST_GRADES], &[u32; MOST_GRADES])> {
        if state >= self.states() || portfolio >= PAIR_PORTFOLIOS {
            return None;
        }
        let (renew_one, renew_two) = Pair::renewals(portfolio);
        let one = self.one.row(renew_one, state % self.one.grades)?;
        let two = self.two.row(renew_two, state / self.one.grades)?;
        (self.one.staying(one) * self.two.staying(two) >= self.threshold).then_some((one, two))
    }
}

impl Plant for Pair {
    fn states(&self) -> usize {
        self.one.grades * self.two.grades
    }

    fn portfolios(&self) -> usize {
        PAIR_PORTFOLIOS
    }

    fn feasible(&self, state: usize, portfolio: usize) -> bool {
        self.rows(state, portfolio).is_some()
    }

    fn bill(&self, state: usize, portfolio: usize) -> Option<Bill> {
        self.rows(state, portfolio)?;
        let (one, two) = (state % self.one.grades, state / self.one.grades);
        let (renew_one, renew_two) = Pair::renewals(portfolio);
        let setup = if portfolio == 0 { 0 } else { self.setup };
        Some(Bill {
            seconds: self.one.dark_seconds(one) + self.two.dark_seconds(two),
            cents: self.inspect
                + setup
                + self.one.renewal_cents(renew_one, one)
                + self.two.renewal_cents(renew_two, two),
        })
    }

    fn outcome_count(&self, state: usize, portfolio: usize) -> usize {
        if self.feasible(state, portfolio) { self.states() } else { 0 }
    }

    fn outcome(&self, state: usize, portfolio: usize, k: usize) -> Option<Outcome> {
        let (one, two) = self.rows(state, portfolio)?;
        if k >= self.states() {
            return None;
        }
        let weight = one[k % self.one.grades] * two[k / self.one.grades];
        Some(Outcome { next: k, weight })
    }
}

// ---- the tariffs

pub trait Tariff {
    type Amount: Copy;
    const PLACES: usize;
    fn zero(&self) -> Self::Amount;
    fn price(&self, bill: Bill) -> Option<Self::Amount>;
    fn at_most(&self, a: Self::Amount, b: Self::Amount) -> bool;
    fn sum(&self, a: Self::Amount, b: Self::Amount) -> Option<Self::Amount>;
    fn difference(&self, a: Self::Amount, b: Self::Amount) -> Option<Self::Amount>;
    fn multiple(&self, factor: u32, a: Self::Amount) -> Option<Self::Amount>;
    fn share(&self, a: Self::Amount) -> Self::Amount;
    fn reach(&self, a: Self::Amount) -> u64;
    fn place(&self, a: Self::Amount, i: usize) -> Option<i64>;
}

// Whether amounts of these reaches may be added or subtracted.
fn sum_within(a: u64, b: u64) -> bool {
    a.checked_add(b).is_some_and(|reach| reach <= MOST_REACH)
}

// Whether an amount of this reach may be multiplied by the factor.
fn multiple_within(factor: u32, reach: u64) -> bool {
    factor <= MOST_FACTOR && u64::from(factor).checked_mul(reach).is_some_and(|reach| reach <= MOST_REACH)
}

fn share(a: i64) -> i64 {
    a.div_euclid(i64::from(WHOLE))
}

fn lawful(bill: Bill) -> bool {
    bill.seconds <= MOST_SECONDS && bill.cents <= MOST_CENTS
}

pub struct Priced {
    pub rate: u32,
}

impl Tariff for Priced {
    type Amount = i64;
    const PLACES: usize = 1;

    fn zero(&self) -> i64 {
        0
    }

    fn price(&self, bill: Bill) -> Option<i64> {
        lawful(bill).then(|| 1000 * (i64::from(bill.seconds) * i64::from(self.rate) + i64::from(bill.cents)))
    }

    fn at_most(&self, a: i64, b: i64) -> bool {
        a <= b
    }

    fn sum(&self, a: i64, b: i64) -> Option<i64> {
        sum_within(self.reach(a), self.reach(b)).then(|| a + b)
    }

    fn difference(&self, a: i64, b: i64) -> Option<i64> {
        sum_within(self.reach(a), self.reach(b)).then(|| a - b)
    }

    fn multiple(&self, factor: u32, a: i64) -> Option<i64> {
        multiple_within(factor, self.reach(a)).then(|| i64::from(factor) * a)
    }

    fn share(&self, a: i64) -> i64 {
        share(a)
    }

    fn reach(&self, a: i64) -> u64 {
        a.unsigned_abs()
    }

    fn place(&self, a: i64, i: usize) -> Option<i64> {
        (i == 0).then_some(a)
    }
}

#[derive(Clone, Copy, PartialEq, Eq, PartialOrd, Ord)]
pub struct DarkThenCost {
    pub dark: i64,
    pub cost: i64,
}

pub struct AirFirst;

impl Tariff for AirFirst {
    type Amount = DarkThenCost;
    const PLACES: usize = 2;

    fn zero(&self) -> DarkThenCost {
        DarkThenCost { dark: 0, cost: 0 }
    }

    fn price(&self, bill: Bill) -> Option<DarkThenCost> {
        lawful(bill).then(|| DarkThenCost {
            dark: 1000 * i64::from(bill.seconds),
            cost: 1000 * i64::from(bill.cents),
        })
    }

    fn at_most(&self, a: DarkThenCost, b: DarkThenCost) -> bool {
        a <= b
    }

    fn sum(&self, a: DarkThenCost, b: DarkThenCost) -> Option<DarkThenCost> {
        sum_within(self.reach(a), self.reach(b))
            .then(|| DarkThenCost { dark: a.dark + b.dark, cost: a.cost + b.cost })
    }

    fn difference(&self, a: DarkThenCost, b: DarkThenCost) -> Option<DarkThenCost> {
        sum_within(self.reach(a), self.reach(b))
            .then(|| DarkThenCost { dark: a.dark - b.dark, cost: a.cost - b.cost })
    }

    fn multiple(&self, factor: u32, a: DarkThenCost) -> Option<DarkThenCost> {
        let by = i64::from(factor);
        multiple_within(factor, self.reach(a)).then(|| DarkThenCost { dark: by * a.dark, cost: by * a.cost })
    }

    fn share(&self, a: DarkThenCost) -> DarkThenCost {
        DarkThenCost { dark: share(a.dark), cost: share(a.cost) }
    }

    fn reach(&self, a: DarkThenCost) -> u64 {
        a.dark.unsigned_abs().max(a.cost.unsigned_abs())
    }

    fn place(&self, a: DarkThenCost, i: usize) -> Option<i64> {
        match i {
            0 => Some(a.dark),
            1 => Some(a.cost),
            _ => None,
        }
    }
}

// ---- the planner

#[derive(Clone, Copy)]
pub struct Claims<A> {
    pub low: A,
    pub high: A,
}

#[derive(Clone, Copy, PartialEq, Eq, Debug)]
pub enum Refusal {
    TooManySweeps,
    WrongLength,
    BeyondReach(usize),
}

fn look_ahead<P: Plant, T: Tariff>(
    plant: &P,
    tariff: &T,
    values: &[T::Amount],
    state: usize,
    portfolio: usize,
) -> Option<T::Amount> {
    let price = tariff.price(plant.bill(state, portfolio)?)?;
    let mut sum = tariff.multiple(WHOLE, price)?;
    for k in 0..plant.outcome_count(state, portfolio) {
        let outcome = plant.outcome(state, portfolio, k)?;
        let part = tariff.multiple(outcome.weight, *values.get(outcome.next)?)?;
        sum = tariff.sum(sum, part)?;
    }
    Some(sum)
}

fn gain<P: Plant, T: Tariff>(
    plant: &P,
    tariff: &T,
    values: &[T::Amount],
    state: usize,
    portfolio: usize,
) -> Option<T::Amount> {
    let ahead = look_ahead(plant, tariff, values, state, portfolio)?;
    let own = tariff.multiple(WHOLE, *values.get(state)?)?;
    tariff.difference(ahead, own)
}

// The least look-ahead of a state with its portfolio, the first among equals.
fn least_ahead<P: Plant, T: Tariff>(
    plant: &P,
    tariff: &T,
    values: &[T::Amount],
    state: usize,
) -> (usize, T::Amount) {
    let mut least: Option<(usize, T::Amount)> = None;
    for portfolio in 0..plant.portfolios() {
        if let Some(ahead) = look_ahead(plant, tariff, values, state, portfolio) {
            if !least.is_some_and(|(_, kept)| tariff.at_most(kept, ahead)) {
                least = Some((portfolio, ahead));
            }
        }
    }
    least.expect("every state has a feasible portfolio")
}

// One sweep into the working table, or the first state whose value would be beyond reach.
fn sweep<P: Plant, T: Tariff>(
    plant: &P,
    tariff: &T,
    values: &[T::Amount],
    working: &mut [T::Amount],
) -> Result<(), usize> {
    let base = tariff.share(least_ahead(plant, tariff, values, 0).1);
    for (state, cell) in working.iter_mut().enumerate() {
        let own = tariff.share(least_ahead(plant, tariff, values, state).1);
        let value = tariff.difference(own, base).expect("shares are far within reach");
        if tariff.reach(value) > MOST_VALUE {
            return Err(state);
        }
        *cell = value;
    }
    Ok(())
}

// The least gain of all, and the greatest of the policy's.
fn claims<P: Plant, T: Tariff>(
    plant: &P,
    tariff: &T,
    values: &[T::Amount],
    policy: &[u16],
) -> Option<Claims<T::Amount>> {
    let (mut low, mut high): (Option<T::Amount>, Option<T::Amount>) = (None, None);
    for (state, &chosen) in policy.iter().enumerate() {
        for portfolio in 0..plant.portfolios() {
            if let Some(gain) = gain(plant, tariff, values, state, portfolio) {
                if !low.is_some_and(|kept| tariff.at_most(kept, gain)) {
                    low = Some(gain);
                }
            }
        }
        let gain = gain(plant, tariff, values, state, usize::from(chosen))?;
        if !high.is_some_and(|kept| tariff.at_most(gain, kept)) {
            high = Some(gain);
        }
    }
    Some(Claims { low: low?, high: high? })
}

pub fn plan<P: Plant, T: Tariff>(
    plant: &P,
    tariff: &T,
    sweeps: u32,
    values: &mut [T::Amount],
    working: &mut [T::Amount],
    policy: &mut [u16],
) -> Result<Claims<T::Amount>, Refusal> {
    if sweeps > MOST_SWEEPS {
        return Err(Refusal::TooManySweeps);
    }
    let states = plant.states();
    if values.len() != states || working.len() != states || policy.len() != states {
        return Err(Refusal::WrongLength);
    }
    values.fill(tariff.zero());
    for _ in 0..sweeps {
        if let Err(state) = sweep(plant, tariff, values, working) {
            working.fill(tariff.zero());
            policy.fill(0);
            return Err(Refusal::BeyondReach(state));
        }
        values.copy_from_slice(working);
    }
    working.fill(tariff.zero());
    for (state, cell) in policy.iter_mut().enumerate() {
        *cell = least_ahead(plant, tariff, values, state).0 as u16;
    }
    Ok(claims(plant, tariff, values, policy).expect("the policy is feasible"))
}

// ---- the book

const MOST_WINDOWS: u32 = 1_000_000;

// Where a book stands, and what it has booked.
#[derive(Clone, Copy)]
pub struct Account {
    pub state: usize,
    pub windows: u32,
    pub seconds: u64,
    pub cents: u64,
}

// The fields are told by Debug alone.
#[allow(dead_code)]
#[derive(Debug)]
pub enum BookRefusal {
    NoState(usize),
    WrongLength,
    Infeasible(usize),
    NoOutcome(usize),
    Full,
}

pub struct Open(Account);

pub struct Issued {
    account: Account,
    portfolio: u16,
    bill: Bill,
}

pub struct OnAir {
    account: Account,
    portfolio: u16,
}

impl Open {
    pub fn make<P: Plant>(plant: &P, state: usize) -> Result<Open, BookRefusal> {
        if state >= plant.states() {
            return Err(BookRefusal::NoState(state));
        }
        Ok(Open(Account { state, windows: 0, seconds: 0, cents: 0 }))
    }

    pub fn account(&self) -> Account {
        self.0
    }

    pub fn issue<P: Plant>(self, plant: &P, policy: &[u16]) -> Result<Issued, (Open, BookRefusal)> {
        let account = self.0;
        let state = account.state;
        if account.windows >= MOST_WINDOWS {
            return Err((self, BookRefusal::Full));
        }
        if state >= plant.states() {
            return Err((self, BookRefusal::NoState(state)));
        }
        if policy.len() != plant.states() {
            return Err((self, BookRefusal::WrongLength));
        }
        let portfolio = policy[state];
        match plant.bill(state, usize::from(portfolio)) {
            None => Err((self, BookRefusal::Infeasible(state))),
            Some(bill) => Ok(Issued { account, portfolio, bill }),
        }
    }
}

impl Issued {
    // Totals are added with a check, as nothing here shows that they cannot overflow.
    pub fn carry_out(self) -> OnAir {
        let Issued { account, portfolio, bill } = self;
        OnAir {
            account: Account {
                state: account.state,
                windows: account.windows.checked_add(1).expect("few windows"),
                seconds: account.seconds.checked_add(u64::from(bill.seconds)).expect("few seconds"),
                cents: account.cents.checked_add(u64::from(bill.cents)).expect("few cents"),
            },
            portfolio,
        }
    }
}

impl OnAir {
    pub fn state(&self) -> usize {
        self.account.state
    }

    pub fn portfolio(&self) -> u16 {
        self.portfolio
    }

    pub fn report<P: Plant>(self, plant: &P, k: usize) -> Result<Open, (OnAir, BookRefusal)> {
        let state = self.account.state;
        let portfolio = usize::from(self.portfolio);
        if !plant.feasible(state, portfolio) {
            return Err((self, BookRefusal::NoState(state)));
        }
        match plant.outcome(state, portfolio, k) {
            None => Err((self, BookRefusal::NoOutcome(k))),
            Some(outcome) => Ok(Open(Account { state: outcome.next, ..self.account })),
        }
    }
}
