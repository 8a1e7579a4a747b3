//! One case: a kind, a workload and a filling, measured turn by turn.

use second::{Board, ChipImage, RecordBank, Rule, SlotDevice, SortedTable};

use super::contender::{Contender, Nanoseconds, Product, Second, Sorted};
use super::figures::{median, Times, Writes};
use super::workload::{DialStock, PacketStock, Pattern, Stock, Turn, Workload};
use crate::interface::{DialBoard, PacketBoard, ProductBoard, Record};

pub const SLOTS: usize = 480;

const CHIP_WORDS: usize = 1440;
const BOARD_NUMBER: u16 = 1;
const SEED: u64 = 1;

/// How often look-ups and adds are repeated within a turn; the median counts.
const REPEATS: usize = 5;

/// Random turns differ from each other, the others hardly do.
const RANDOM_TURNS: usize = 400;
const OTHER_TURNS: usize = 21;

pub struct Case {
    pub kind: &'static str,
    pub pattern: Pattern,
    pub filling: usize,
    pub look_up: Times,
    pub add: Times,
    pub complete: Times,
    pub drop: Times,
    pub writes: Writes,
    /// Add and complete of the product together, in each turn.
    pub whole_adds: Vec<Nanoseconds>,
}

pub fn measure_packet(pattern: Pattern, filling: usize, clock: Nanoseconds) -> Case {
    let mut products_words = vec![0; CHIP_WORDS];
    let mut seconds_words = vec![0; CHIP_WORDS];
    let mut sorted_words = vec![0; CHIP_WORDS];
    measure::<PacketStock, _, _>(
        Product::new(PacketBoard::open(&mut products_words, BOARD_NUMBER)),
        Second::new(Board::open(
            ChipImage::new(&mut seconds_words),
            BOARD_NUMBER,
        )),
        Sorted::new(SortedTable::open(ChipImage::new(&mut sorted_words))),
        Case::new(PacketStock::NAME, pattern, filling),
        clock,
    )
}

pub fn measure_dial(pattern: Pattern, filling: usize, clock: Nanoseconds) -> Case {
    let mut products_records = vec![Record::default(); SLOTS];
    let mut seconds_records = vec![Rule::ZERO; SLOTS];
    let mut sorted_records = vec![Rule::ZERO; SLOTS];
    measure::<DialStock, _, _>(
        Product::new(DialBoard::open(&mut products_records, BOARD_NUMBER)),
        Second::new(Board::open(
            RecordBank::new(&mut seconds_records),
            BOARD_NUMBER,
        )),
        Sorted::new(SortedTable::open(RecordBank::new(&mut sorted_records))),
        Case::new(DialStock::NAME, pattern, filling),
        clock,
    )
}

fn measure<S: Stock, ProductsBoard: ProductBoard, Device: SlotDevice>(
    product: Product<ProductsBoard>,
    second: Second<Device>,
    sorted: Sorted<Device>,
    case: Case,
    clock: Nanoseconds,
) -> Case {
    let mut workload = Workload::new(case.pattern, SEED);
    let mut bench = Bench {
        product,
        second,
        sorted,
        case,
        clock,
    };
    for _ in 0..bench.case.filling {
        let filling = bench.case.filling;
        let rule = workload.fill::<S>(filling, |rule| bench.second.would_take(rule));
        bench.put(rule);
    }
    let turns = match bench.case.pattern {
        Pattern::Random => RANDOM_TURNS,
        Pattern::Nested | Pattern::Apart | Pattern::Default => OTHER_TURNS,
    };
    for number in 0..turns {
        let turn = workload.turn::<S>(|rule| bench.second.would_take(rule));
        bench.carry_out(number, &turn);
    }
    bench.case
}

impl Case {
    fn new(kind: &'static str, pattern: Pattern, filling: usize) -> Self {
        Case {
            kind,
            pattern,
            filling,
            look_up: Times::default(),
            add: Times::default(),
            complete: Times::default(),
            drop: Times::default(),
            writes: Writes::default(),
            whole_adds: Vec::new(),
        }
    }

    pub fn name(&self) -> String {
        format!("{} {} {}", self.kind, self.pattern.name(), self.filling)
    }
}

struct Bench<ProductsBoard, Device> {
    product: Product<ProductsBoard>,
    second: Second<Device>,
    sorted: Sorted<Device>,
    case: Case,
    clock: Nanoseconds,
}

impl<ProductsBoard: ProductBoard, Device: SlotDevice> Bench<ProductsBoard, Device> {
    /// Adds a rule everywhere, unmeasured.
    fn put(&mut self, rule: Rule) {
        self.product.add(rule);
        self.product.complete();
        self.second.add(rule);
        self.second.complete();
        self.sorted.add(rule);
    }

    fn carry_out(&mut self, number: usize, turn: &Turn) {
        // Neither of the two is always the first.
        let product_first = number.is_multiple_of(2);
        self.look_up(product_first, &turn.subjects);
        self.add(product_first, turn.add);
        self.drop(product_first, turn.drop);
        if let Some(rule) = turn.put_back {
            self.product.drop(rule.number);
            self.second.drop(rule.number);
            self.sorted.drop(rule.number);
            self.put(rule);
        }
    }

    /// Times without what the clock takes.
    fn net(&self, time: Nanoseconds) -> Nanoseconds {
        (time - self.clock).max(1.0)
    }

    fn look_up(&mut self, product_first: bool, subjects: &[u64]) {
        let (mut products, mut seconds, mut sorteds) = (Vec::new(), Vec::new(), Vec::new());
        let (mut found, mut seconds_found) = (Vec::new(), Vec::new());
        for _ in 0..REPEATS {
            let (product, second) = in_turn(
                product_first,
                || self.product.look_up(subjects, &mut found),
                || self.second.look_up(subjects, &mut seconds_found),
            );
            products.push(product);
            seconds.push(second);
            sorteds.push(self.sorted.look_up(subjects));
        }
        assert_eq!(found, seconds_found, "look-ups of {}", self.case.name());
        let each = |times: &[f64]| self.net(median(times)) / subjects.len() as f64;
        let (product, second, sorted) = (each(&products), each(&seconds), each(&sorteds));
        self.case.look_up.note(product, second);
        self.case.look_up.note_sorted(sorted);
    }

    fn add(&mut self, product_first: bool, rule: Rule) {
        let (mut products, mut seconds) = (Vec::new(), Vec::new());
        for repeat in 1..=REPEATS {
            let (product, second) = in_turn(
                product_first,
                || self.product.add(rule),
                || self.second.add(rule),
            );
            products.push(product);
            seconds.push(second);
            if repeat < REPEATS {
                self.product.withdraw();
                self.second.withdraw();
            }
        }
        let announced = self.product.announced();
        assert_eq!(
            announced,
            self.second.announced(),
            "an add of {}",
            self.case.name()
        );
        let (completed, second_completed) = in_turn(
            product_first,
            || self.product.complete(),
            || self.second.complete(),
        );
        let (sorted, sorted_writes) = self.sorted.add(rule);

        let (product, second) = (self.net(median(&products)), self.net(median(&seconds)));
        let (completed, second_completed) = (self.net(completed), self.net(second_completed));
        let sorted = self.net(sorted);
        self.case.add.note(product, second);
        self.case.add.note_sorted(sorted);
        self.case.complete.note(completed, second_completed);
        self.case.whole_adds.push(product + completed);
        self.case.writes.note(usize::from(announced), sorted_writes);
    }

    fn drop(&mut self, product_first: bool, number: u16) {
        let (product, second) = in_turn(
            product_first,
            || self.product.drop(number),
            || self.second.drop(number),
        );
        let sorted = self.sorted.drop(number);
        let (product, second, sorted) = (self.net(product), self.net(second), self.net(sorted));
        self.case.drop.note(product, second);
        self.case.drop.note_sorted(sorted);
    }
}

/// Both actions, one right after the other; the product's time is answered first.
fn in_turn(
    product_first: bool,
    mut product: impl FnMut() -> Nanoseconds,
    mut second: impl FnMut() -> Nanoseconds,
) -> (Nanoseconds, Nanoseconds) {
    if product_first {
        let products = product();
        (products, second())
    } else {
        let seconds = second();
        (product(), seconds)
    }
}
