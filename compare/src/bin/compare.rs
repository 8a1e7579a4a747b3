//! Looks for a difference between the product and the second implementation.

use std::path::Path;
use std::process::ExitCode;
use std::time::{SystemTime, UNIX_EPOCH};

use compare::caller::Manner;
use compare::lock_step::Game;
use compare::matter::{Matter, DIALLING, NESTED_DIALLING, NESTED_PACKETS, PACKETS};
use compare::tally::Tally;
use compare::{files, lock_step};
use second::chip_image::{MOST_BLOCKS, ROWS, WORDS_PER_BLOCK};
use second::random::Random;

const USAGE: &str = "\
usage: compare PROGRAM [ROUNDS [SEED]]
  PROGRAM  the product's program
  ROUNDS   how many rounds; 10 without it
  SEED     a decimal number; from the clock without it";

const USUAL_ROUNDS: u64 = 10;

/// Words after the whole blocks. With 143 one more word would make a block; 150 are a block and six.
const WORDS_MORE: [usize; 6] = [0, 1, 47, 143, 144, 150];

fn main() -> ExitCode {
    let arguments: Vec<String> = std::env::args().skip(1).collect();
    let arguments: Vec<&str> = arguments.iter().map(String::as_str).collect();
    let (program, rounds, seed) = match arguments[..] {
        [program] => (program, Some(USUAL_ROUNDS), Some(seed_of_the_clock())),
        [program, rounds] => (program, rounds.parse().ok(), Some(seed_of_the_clock())),
        [program, rounds, seed] => (program, rounds.parse().ok(), seed.parse().ok()),
        _ => ("", None, None),
    };
    let (Some(rounds), Some(seed)) = (rounds, seed) else {
        eprintln!("{USAGE}");
        return ExitCode::from(2);
    };
    println!("seed     {seed:>10}\nrounds   {rounds:>10}");
    let mut tally = Tally::default();
    let outcome = compare(Path::new(program), rounds, seed, &mut tally);
    print!("{tally}");
    match outcome {
        Ok(()) => {
            println!("differences       0");
            ExitCode::SUCCESS
        }
        Err(what) => {
            println!("differences       1, the first of seed {seed}:\n{what}");
            ExitCode::FAILURE
        }
    }
}

fn seed_of_the_clock() -> u64 {
    let since = SystemTime::now()
        .duration_since(UNIX_EPOCH)
        .unwrap_or_default();
    since.as_millis() as u64
}

/// One round is a set of order files, a packet board and a dial board of each matter, and two towers.
fn compare(program: &Path, rounds: u64, seed: u64, tally: &mut Tally) -> Result<(), String> {
    let mut random = Random::new(seed);
    for round in 1..=rounds {
        play_round(program, &mut random, tally).map_err(|what| format!("round {round}, {what}"))?;
    }
    Ok(())
}

fn play_round(program: &Path, random: &mut Random, tally: &mut Tally) -> Result<(), String> {
    let file_seed = random.word();
    files::compare(program, file_seed, tally)
        .map_err(|what| format!("files of seed {file_seed}: {what}"))?;
    for matter in &PACKETS {
        let words = some_words(random);
        let game = some_game(matter, words / WORDS_PER_BLOCK * ROWS, random);
        packet(words, &game, random, tally)?;
    }
    for matter in &DIALLING {
        let records = some_records(random);
        let game = some_game(matter, records, random);
        dial(records, &game, random, tally)?;
    }
    let all_words = MOST_BLOCKS * WORDS_PER_BLOCK + random.pick(&WORDS_MORE);
    packet(
        all_words,
        &tower(&NESTED_PACKETS, MOST_BLOCKS * ROWS),
        random,
        tally,
    )?;
    // The second implementation takes its time over dial rules that meet.
    let records = 1 + random.below(160) as usize;
    dial(records, &tower(&NESTED_DIALLING, records), random, tally)
}

fn packet(words: usize, game: &Game, random: &mut Random, tally: &mut Tally) -> Result<(), String> {
    lock_step::packet(words, game, random, tally)
        .map_err(|what| format!("{} on {words} words: {what}", game.matter.name))
}

fn dial(records: usize, game: &Game, random: &mut Random, tally: &mut Tally) -> Result<(), String> {
    lock_step::dial(records, game, random, tally)
        .map_err(|what| format!("{} on {records} records: {what}", game.matter.name))
}

/// Calls enough to fill the slots and to drop and change much of it.
fn some_game<'matter>(matter: &'matter Matter, slots: usize, random: &mut Random) -> Game<'matter> {
    let slots = slots.min(MOST_BLOCKS * ROWS) as u64;
    Game {
        matter,
        manner: random.pick(&[Manner::Wandering, Manner::Wandering, Manner::Rising]),
        calls: 1_500 + 8 * slots,
    }
}

/// Calls enough to fill the slots and then to shift all of it some times.
fn tower(matter: &Matter, slots: usize) -> Game<'_> {
    Game {
        matter,
        manner: Manner::Tower,
        calls: 300 + 12 * slots as u64,
    }
}

/// Mostly 48 to 480 slots; also none, and more blocks than count.
fn some_words(random: &mut Random) -> usize {
    let blocks = match random.below(20) {
        0 => 0,
        1 => 11,
        2..=5 => 10,
        _ => 1 + random.below(9) as usize,
    };
    blocks * WORDS_PER_BLOCK + random.pick(&WORDS_MORE)
}

/// Mostly few, since on few records every corner is soon reached; also none, and more than count.
fn some_records(random: &mut Random) -> usize {
    let records = match random.below(20) {
        0 => 0,
        1 => 481 + random.below(20),
        2 => 480,
        3..=12 => 1 + random.below(12),
        _ => 1 + random.below(480),
    };
    records as usize
}
