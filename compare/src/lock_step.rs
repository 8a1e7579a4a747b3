//! Both implementations driven call by call, with everything compared after each call.

use std::fmt::Debug;
use std::hint::black_box;

use second::random::Random;
use second::{Board, ChipImage, RecordBank, Rule, SlotDevice};

use crate::answering;
use crate::caller::{Caller, Manner};
use crate::interface::{Answer, Call, DialBoard, Job, PacketBoard, ProductBoard, Record};
use crate::matter::Matter;
use crate::tally::Tally;

/// Cells before and after those that are lent, which nobody may touch.
const MARGIN: usize = 16;

/// What is played on a board.
pub struct Game<'matter> {
    pub matter: &'matter Matter,
    pub manner: Manner,
    pub calls: u64,
}

/// A device of the second implementation that shows its memory.
pub trait Cells {
    type Cell;

    fn cells(&self) -> &[Self::Cell];
}

impl Cells for ChipImage<'_> {
    type Cell = u64;

    fn cells(&self) -> &[u64] {
        self.words()
    }
}

impl Cells for RecordBank<'_> {
    type Cell = Rule;

    fn cells(&self) -> &[Rule] {
        self.records()
    }
}

/// Plays calls on packet boards over the same words. An error says what differed.
pub fn packet(
    words: usize,
    game: &Game,
    random: &mut Random,
    tally: &mut Tally,
) -> Result<(), String> {
    // Words that are no zeros, so that every erase of the opening is seen.
    let before: Vec<u64> = (0..words + 2 * MARGIN).map(|_| random.word()).collect();
    let number = board_number(random);
    let mut lent = before.clone();
    let (front, rest) = lent.split_at_mut(MARGIN);
    let (middle, back) = rest.split_at_mut(words);
    let mut product = PacketBoard::open(middle, number);
    let mut seconds_words = before[MARGIN..MARGIN + words].to_vec();
    let mut second = Board::open(ChipImage::new(&mut seconds_words), number);
    let margins_stand = || {
        black_box(&*front) == &before[..MARGIN] && black_box(&*back) == &before[MARGIN + words..]
    };
    play(
        &mut product,
        &mut second,
        margins_stand,
        game,
        random,
        tally,
    )
}

/// Plays calls on dial boards over the same records. An error says what differed.
pub fn dial(
    records: usize,
    game: &Game,
    random: &mut Random,
    tally: &mut Tally,
) -> Result<(), String> {
    let before: Vec<Record> = (0..records + 2 * MARGIN)
        .map(|_| Record::any(random))
        .collect();
    let number = board_number(random);
    let mut lent = before.clone();
    let (front, rest) = lent.split_at_mut(MARGIN);
    let (middle, back) = rest.split_at_mut(records);
    let mut product = DialBoard::open(middle, number);
    let mut seconds_records: Vec<Rule> = before[MARGIN..MARGIN + records]
        .iter()
        .map(|&record| Rule::from(record))
        .collect();
    let mut second = Board::open(RecordBank::new(&mut seconds_records), number);
    let margins_stand = || {
        black_box(&*front) == &before[..MARGIN] && black_box(&*back) == &before[MARGIN + records..]
    };
    play(
        &mut product,
        &mut second,
        margins_stand,
        game,
        random,
        tally,
    )
}

fn board_number(random: &mut Random) -> u16 {
    let any = random.word() as u16;
    random.pick(&[0, 1, u16::MAX, any])
}

fn play<Product, Device>(
    product: &mut Product,
    second: &mut Board<Device>,
    margins_stand: impl Fn() -> bool,
    game: &Game,
    random: &mut Random,
    tally: &mut Tally,
) -> Result<(), String>
where
    Product: ProductBoard,
    Device: SlotDevice + Cells,
    Product::Cell: PartialEq<Device::Cell> + Debug,
    Device::Cell: Debug,
{
    tally.boards += 1;
    memory_is_alike(product, second, &margins_stand).map_err(|what| format!("opening: {what}"))?;
    let slots = second.slots().len();
    let mut caller = Caller::new(game.matter, game.manner, Random::new(random.word()), slots);
    for call_number in 1..=game.calls {
        let call = caller.next_call(second);
        let job_before = *product.job();
        let products = product.call(&call);
        let seconds = answering::answer(second, &call);
        caller.hear(&call, &seconds);
        tally.calls += 1;
        tally.note_refusal(seconds.refusal);
        if call.letter == b'A' && seconds.refusal == 0 {
            tally.adds += 1;
            tally.longest_chain = tally.longest_chain.max(seconds.value);
        }
        answers_are_alike(&products, &seconds)
            .and_then(|()| memory_is_alike(product, second, &margins_stand))
            .and_then(|()| job_is_kept(&call, &products, &job_before, product.job()))
            .map_err(|what| format!("call {call_number}, {}: {what}", shown(&call)))?;
    }
    Ok(())
}

fn answers_are_alike(product: &Answer, second: &Answer) -> Result<(), String> {
    if product == second {
        return Ok(());
    }
    Err(format!(
        "the product answers {product:?}, the second implementation {second:?}"
    ))
}

/// All lent cells, the cells around them, and the open add.
fn memory_is_alike<Product, Device>(
    product: &Product,
    second: &Board<Device>,
    margins_stand: &impl Fn() -> bool,
) -> Result<(), String>
where
    Product: ProductBoard,
    Device: SlotDevice + Cells,
    Product::Cell: PartialEq<Device::Cell> + Debug,
    Device::Cell: Debug,
{
    let cells = product.cells().iter().zip(second.device().cells());
    for (place, (products, seconds)) in cells.enumerate() {
        if products != seconds {
            return Err(format!(
                "cell {place} of {} is {products:x?} for the product and {seconds:x?} for the second \
                 implementation",
                product.cells().len()
            ));
        }
    }
    if !margins_stand() {
        return Err("the product has written outside the cells that were lent to it".to_string());
    }
    open_add_is_alike(product.job(), second)
}

fn open_add_is_alike<Device: SlotDevice>(job: &Job, second: &Board<Device>) -> Result<(), String> {
    let (chain, made) = match (second.open_chain(), second.writes_made()) {
        (Some(chain), Some(made)) => (chain, made),
        _ if job.busy => return Err("only the product has an open add".to_string()),
        _ => return Ok(()),
    };
    let length = usize::from(job.chain.length);
    let places = job.chain.places.iter().map(|&place| usize::from(place));
    if !job.busy {
        Err("only the second implementation has an open add".to_string())
    } else if length != chain.len() || places.take(length).ne(chain.iter().copied()) {
        Err(format!(
            "the chain is {:?} for the product, {chain:?} for the second implementation",
            &job.chain.places[..length.min(job.chain.places.len())]
        ))
    } else if usize::from(job.made) != made {
        Err(format!(
            "{} writes made for the product, {made} for the second implementation",
            job.made
        ))
    } else {
        Ok(())
    }
}

/// A refusal and a look-up leave the board's own record as it was.
fn job_is_kept(call: &Call, answer: &Answer, before: &Job, after: &Job) -> Result<(), String> {
    if (answer.refusal != 0 || call.letter == b'L') && before != after {
        return Err("the board's own record was changed by a refusal or a look-up".to_string());
    }
    Ok(())
}

/// The call with the fields that its letter uses.
fn shown(call: &Call) -> String {
    match call.letter {
        b'A' => format!("A {:x?}", call.rule),
        b'D' => format!("D {}", call.rule.number),
        b'C' => format!("C {} {}", call.rule.number, call.rule.action),
        b'L' => format!("L {:016x}", call.subject),
        b'S' | b'E' | b'W' => format!("{} {:?}", char::from(call.letter), call.ticket),
        other => format!("letter {other}"),
    }
}
