//! Demand 3 through the entries: fields, queues and joins in any order and with repeats, after which every slot holds the greatest
//! card that was accepted for it. What is accepted is the reference's word; which card is the greatest is worked out here from all
//! of them together and not from one filing to the next.
use crate::shelves::filing_in_hex;
use skogmund_tests::entries::{self, Answer};
use skogmund_tests::generate::filings::{Filing, Stock};
use skogmund_tests::generate::queues::queue_of;
use skogmund_tests::generate::shelves::{any_shelf, shelf_beside};
use skogmund_tests::generate::Rng;
use skogmund_tests::lent::hex;
use skogmund_tests::reference::entries::{card, VALUES};
use skogmund_tests::reference::queue::{records, QueueRecord};
use skogmund_tests::reference::shelf::{Card, SLOTS};
use skogmund_tests::reference::shelf_octets::SHELF_OCTETS;
use skogmund_tests::reference::Outcome;
use std::collections::BTreeSet;

type Octets = Vec<u8>;

/// What comes in at a trailer.
enum Arrival {
    Field(Filing),
    Queue(Octets),
}

impl Arrival {
    fn some(rng: &mut Rng, stock: &Stock) -> Arrival {
        match rng.below(3) {
            0 => Arrival::Queue(queue_of(rng, stock)),
            _ => Arrival::Field(stock.filing(rng)),
        }
    }

    fn in_hex(&self) -> String {
        match self {
            Arrival::Field(filing) => filing_in_hex(filing),
            Arrival::Queue(queue) => format!("file_queue queue {}", hex(queue)),
        }
    }

    /// The slot and the card of each filing in it, or why there is none; 2 and 19 for a queue as a whole.
    fn cards(&self) -> Outcome<Vec<Outcome<(usize, Card)>>> {
        match self {
            Arrival::Field(filing) => {
                let card = card(filing.slot, filing.issue_plus_1, filing.sections())?;
                Ok(vec![Ok((filing.slot as usize, card))])
            }
            Arrival::Queue(queue) => {
                let card = |record: QueueRecord| Ok((record.slot as usize, record.card()?));
                Ok(records(queue)?.into_iter().map(card).collect())
            }
        }
    }
}

/// What a history does next: something arrives at a trailer, or one joins another's shelf in.
#[derive(Clone, Copy, Debug)]
enum Step {
    Arrives { what: usize, at: usize },
    Joins { at: usize, from: usize },
}

/// A shelf and all cards that were accepted for its slots, here or where it was joined from.
#[derive(Clone)]
struct Trailer {
    shelf: Octets,
    accepted: Vec<BTreeSet<Card>>,
}

fn held_to<T: PartialEq + std::fmt::Debug>(what: &str, library: T, owed: T) -> Result<(), String> {
    match library == owed {
        true => Ok(()),
        false => Err(format!("{what}: by the library {library:?}, owed {owed:?}")),
    }
}

/// As above for shelves, which are shown in hex.
fn same_shelf(what: &str, library: &[u8], owed: &[u8]) -> Result<(), String> {
    match library == owed {
        true => Ok(()),
        false => held_to(what, hex(library), hex(owed)),
    }
}

/// A call that no refusal is owed by.
fn done(what: &str, answer: Answer) -> Result<(), String> {
    held_to(what, answer, Answer::Done)
}

fn empty_shelf() -> Result<Octets, String> {
    let mut shelf = vec![9; SHELF_OCTETS];
    done("empty", entries::empty(&mut shelf))?;
    Ok(shelf)
}

fn joined(shelf: &[u8], other: &[u8]) -> Result<Octets, String> {
    let mut shelf = shelf.to_vec();
    done("join", entries::join(&mut shelf, other))?;
    Ok(shelf)
}

/// The shelf after an arrival, the answer, and its filings kept, passed and refused; those of a refused field are all 0.
fn after(shelf: &[u8], arrival: &Arrival) -> (Octets, Answer, [u64; 3]) {
    let (mut shelf, mut counts) = (shelf.to_vec(), [0; 3]);
    let answer = match arrival {
        Arrival::Queue(queue) => entries::file_queue(&mut shelf, queue, &mut counts),
        Arrival::Field(filing) => {
            let (slot, issue) = (filing.slot, filing.issue_plus_1);
            let mut kept = [9];
            let answer = entries::file(&mut shelf, slot, issue, filing.sections(), &mut kept);
            if answer == Answer::Done {
                counts = [kept[0], 1 - kept[0].min(1), 0];
            }
            answer
        }
    };
    (shelf, answer, counts)
}

impl Trailer {
    fn new() -> Result<Trailer, String> {
        Ok(Trailer {
            shelf: empty_shelf()?,
            accepted: vec![BTreeSet::new(); SLOTS],
        })
    }

    /// Kept is a card above all that were accepted before.
    fn accept(&mut self, card: Outcome<(usize, Card)>, counts: &mut [u64; 3]) {
        let Ok((slot, card)) = card else {
            counts[2] += 1;
            return;
        };
        let greatest = self.accepted[slot].last();
        counts[usize::from(greatest >= Some(&card))] += 1;
        self.accepted[slot].insert(card);
    }

    fn take(&mut self, arrival: &Arrival) -> Result<(), String> {
        let (shelf, answer, counts) = after(&self.shelf, arrival);
        let cards = arrival.cards();
        held_to("the answer", answer, Answer::from(&cards))?;
        let mut owed = [0; 3];
        for card in cards.unwrap_or_default() {
            self.accept(card, &mut owed);
        }
        held_to("kept, passed, refused", counts, owed)?;
        self.shelf = shelf;
        Ok(())
    }

    fn join(&mut self, other: &Trailer) -> Result<(), String> {
        self.shelf = joined(&self.shelf, &other.shelf)?;
        for (here, there) in self.accepted.iter_mut().zip(&other.accepted) {
            here.extend(there.iter().cloned());
        }
        Ok(())
    }

    fn holds_the_greatest(&self) -> Result<(), String> {
        for (slot, accepted) in self.accepted.iter().enumerate() {
            let mut values = [9; VALUES];
            done("slot", entries::slot(&self.shelf, slot as u64, &mut values))?;
            let owed = accepted.last().map_or(vec![], Card::values);
            held_to("count of values", values[0], owed.len() as i64)?;
            let held = values[1..].get(..owed.len()).unwrap_or(&[]);
            held_to(&format!("slot {slot}"), held, &owed[..])?;
        }
        Ok(())
    }
}

struct History {
    arrivals: Vec<Arrival>,
    trailers: usize,
    steps: Vec<Step>,
}

impl History {
    /// Each arrival comes at least once, at any trailer, and some come again there or elsewhere.
    fn some(rng: &mut Rng) -> History {
        let stock = Stock::new(rng);
        let trailers = rng.within(1, 3);
        let count = rng.within(1, 7);
        let arrivals: Vec<Arrival> = (0..count).map(|_| Arrival::some(rng, &stock)).collect();
        let again = rng.below(5);
        let arrive = |rng: &mut Rng, what| Step::Arrives {
            what,
            at: rng.below(trailers),
        };
        let mut steps: Vec<Step> = (0..count).map(|what| arrive(rng, what)).collect();
        for _ in 0..again {
            let what = rng.below(count);
            steps.push(arrive(rng, what));
            let (at, from) = (rng.below(trailers), rng.below(trailers));
            steps.push(Step::Joins { at, from });
        }
        shuffle(rng, &mut steps);
        History {
            arrivals,
            trailers,
            steps,
        }
    }

    fn in_hex(&self) -> String {
        let arrivals = self.arrivals.iter().enumerate();
        let arrivals: String = arrivals
            .map(|(what, arrival)| format!("\n  {what}: {}", arrival.in_hex()))
            .collect();
        format!("{:?}{arrivals}", self.steps)
    }

    fn run(&self) -> Result<Vec<Trailer>, String> {
        let mut trailers = vec![Trailer::new()?; self.trailers];
        for step in &self.steps {
            match *step {
                Step::Arrives { what, at } => trailers[at].take(&self.arrivals[what]),
                Step::Joins { at, from } => {
                    let from = trailers[from].clone();
                    trailers[at].join(&from)
                }
            }
            .map_err(|said| format!("{step:?}: {said}"))?;
        }
        trailers.iter().try_for_each(Trailer::holds_the_greatest)?;
        Ok(trailers)
    }

    /// One shelf that all trailers are joined into, in any order and perhaps again, is the one that all arrivals make in any
    /// other order.
    fn order_is_no_matter(&self, rng: &mut Rng, trailers: &[Trailer]) -> Result<(), String> {
        let mut order: Vec<usize> = (0..trailers.len()).collect();
        order.push(rng.below(trailers.len()));
        shuffle(rng, &mut order);
        let mut gathered = Trailer::new()?;
        for which in order {
            gathered.join(&trailers[which])?;
        }
        let mut arrivals: Vec<&Arrival> = self.arrivals.iter().collect();
        shuffle(rng, &mut arrivals);
        let mut alone = Trailer::new()?;
        for arrival in arrivals {
            alone.take(arrival)?;
        }
        alone.holds_the_greatest()?;
        same_shelf("all in another order", &alone.shelf, &gathered.shelf)
    }
}

fn shuffle<T>(rng: &mut Rng, all: &mut [T]) {
    for end in (1..all.len()).rev() {
        all.swap(end, rng.below(end + 1));
    }
}

/// Joins are commutative, associative and idempotent, for shelves of any octets.
fn laws_of_joins(a: &[u8], b: &[u8], c: &[u8]) -> Result<(), String> {
    let (ab, bc) = (joined(a, b)?, joined(b, c)?);
    same_shelf("commutative", &ab, &joined(b, a)?)?;
    same_shelf("associative", &joined(&ab, c)?, &joined(a, &bc)?)?;
    same_shelf("idempotent", &joined(a, a)?, &joined(a, &empty_shelf()?)?)?;
    same_shelf("absorbing", &joined(&ab, b)?, &ab)
}

/// What arrives at a shelf is joined in, as the shelf that it makes from empty.
fn filing_is_joining(shelf: &[u8], arrival: &Arrival) -> Result<(), String> {
    let (filed, answer, _) = after(shelf, arrival);
    let (alone, alone_answer, _) = after(&empty_shelf()?, arrival);
    held_to("the answer from empty", alone_answer, answer)?;
    if answer != Answer::Done {
        return Ok(());
    }
    same_shelf("filing is joining", &filed, &joined(shelf, &alone)?)
}

/// Three shelves: a trailer's, one of any octets, and one that is like either but for some octets.
fn three_shelves(rng: &mut Rng, trailers: &[Trailer]) -> [Octets; 3] {
    let one = trailers[rng.below(trailers.len())].shelf.clone();
    let other = any_shelf(rng);
    let beside = match rng.below(2) {
        0 => shelf_beside(rng, &one),
        _ => shelf_beside(rng, &other),
    };
    let mut three = [one, other, beside];
    shuffle(rng, &mut three);
    three
}

pub fn one_history(rng: &mut Rng) -> Result<(), String> {
    let history = History::some(rng);
    let mut checked = || {
        let trailers = history.run()?;
        history.order_is_no_matter(rng, &trailers)?;
        let three = three_shelves(rng, &trailers);
        let in_hex = |said| format!("{said}\nshelves {:?}", three.each_ref().map(|one| hex(one)));
        laws_of_joins(&three[0], &three[1], &three[2]).map_err(in_hex)?;
        let arrival = &history.arrivals[rng.below(history.arrivals.len())];
        filing_is_joining(&three[0], arrival).map_err(in_hex)
    };
    checked().map_err(|said: String| format!("{said}\nhistory {}", history.in_hex()))
}
