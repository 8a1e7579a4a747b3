//! The corpus: order files made from a seed, with the lines that they give.

use std::fs;
use std::io;
use std::path::Path;

use crate::board::Phase;
use crate::chip_image::{ChipImage, ROWS, WORDS_PER_BLOCK};
use crate::coverage::Coverage;
use crate::device::SlotDevice;
use crate::draft::{DialDraft, Draft};
use crate::order::Order;
use crate::play::{next_order, play, LONGEST_ORDER};
use crate::program::{dial_lines, packet_lines, DIAL_SLOTS, MOST_BYTES};
use crate::random::Random;
use crate::record_bank::RecordBank;
use crate::rule::Rule;
use crate::script::{self, PHASES};
use crate::style::{APART, CROWDED, LAST_PLACES, NESTED, OVERLAPPING, PACKETS};

pub struct Corpus {
    pub files: Vec<CorpusFile>,
    pub coverage: String,
}

pub struct CorpusFile {
    pub name: String,
    pub orders: Vec<u8>,
    /// What `second run` prints.
    pub lines: String,
    /// For a file made for a chip: what `second packet` prints.
    pub words: Option<String>,
}

/// The files of a seed, whatever they cover.
pub fn files(seed: u64) -> Vec<CorpusFile> {
    let mut maker = Maker {
        seed,
        files: Vec::new(),
    };
    maker.make_all();
    maker.files
}

/// Makes the corpus, or answers what it does not cover.
pub fn make(seed: u64) -> Result<Corpus, Vec<String>> {
    let files = files(seed);
    let mut coverage = Coverage::default();
    for file in &files {
        coverage.note_file(&file.name, &file.orders, file.name == RANDOM_BYTES);
    }
    let missing = coverage.missing();
    if !missing.is_empty() {
        return Err(missing);
    }
    let coverage = coverage.report(seed) + &packet_report(&files);
    Ok(Corpus { files, coverage })
}

impl Corpus {
    pub fn write_into(&self, folder: &Path) -> io::Result<()> {
        fs::create_dir_all(folder)?;
        for file in &self.files {
            let path = |ending| folder.join(format!("{}.{ending}", file.name));
            fs::write(path("orders"), &file.orders)?;
            fs::write(path("lines"), &file.lines)?;
            if let Some(words) = &file.words {
                fs::write(path("words"), words)?;
            }
        }
        fs::write(folder.join("coverage.txt"), &self.coverage)
    }
}

/// What the files for chips reach there.
fn packet_report(files: &[CorpusFile]) -> String {
    let mut report = "\nLongest chains announced on the chip images\n".to_string();
    for file in files {
        let longest = file
            .words
            .iter()
            .flat_map(|words| words.lines())
            .filter_map(announced)
            .max();
        if let Some(longest) = longest {
            report += &format!("  {}: {longest}\n", file.name);
        }
    }
    report
}

/// The count in the line of an add that was not refused.
fn announced(line: &str) -> Option<u64> {
    match line.split(' ').collect::<Vec<_>>()[..] {
        ["A", _, "0", count] => count.parse().ok(),
        _ => None,
    }
}

const RANDOM_BYTES: &str = "random_bytes";

struct Maker {
    seed: u64,
    files: Vec<CorpusFile>,
}

impl Maker {
    /// Numbers for the next file. Each file has its own row of them, so that a change to one file
    /// leaves the others as they are.
    fn random(&self) -> Random {
        let mut by_seed = Random::new(self.seed);
        Random::new(by_seed.word() ^ self.files.len() as u64)
    }

    fn keep(&mut self, name: &str, orders: Vec<u8>) {
        let lines = dial_lines(&orders);
        self.files.push(CorpusFile {
            name: name.to_string(),
            orders,
            lines,
            words: None,
        });
    }

    /// A file built on a draft that a dial board follows.
    fn dial(&mut self, name: &str, build: impl FnOnce(&mut DialDraft, &mut Random)) {
        let mut random = self.random();
        let mut records = [Rule::ZERO; DIAL_SLOTS];
        let mut draft = Draft::new(RecordBank::new(&mut records));
        build(&mut draft, &mut random);
        self.keep(name, draft.into_bytes());
    }

    /// A file built on a draft that a packet board follows. It ends in the middle of a shift, so that
    /// the words at the very end show the withdraw, and then with the given bytes.
    fn packet(&mut self, slots: usize, bytes: usize, end: &[u8]) {
        let mut random = self.random();
        let mut words = vec![0; slots / ROWS * WORDS_PER_BLOCK];
        let mut draft = Draft::new(ChipImage::new(&mut words));
        play(&mut draft, &mut random, &PACKETS, bytes);
        while !is_amid_a_shift(&draft) && draft.length() + LONGEST_ORDER + end.len() <= MOST_BYTES {
            let order = next_order(&mut draft, &mut random, &PACKETS);
            draft.tell(order);
        }
        draft.damage(end);
        let orders = draft.into_bytes();
        let words = packet_lines(&orders, slots);
        self.keep(&format!("packet_{slots}"), orders);
        self.files.last_mut().expect("just kept").words = words;
    }

    fn make_all(&mut self) {
        self.keep("empty", Vec::new());
        self.dial("worked_case_10", |draft, _| {
            script::worked_case(draft, Order::Complete)
        });
        self.dial("worked_case_11", |draft, _| {
            script::worked_case(draft, Order::Withdraw)
        });
        self.dial("every_call_in_every_phase", |draft, _| {
            script::every_call_in_every_phase(draft)
        });
        self.dial("corners", |draft, _| script::corners(draft));
        self.dial("chains", |draft, _| script::chains(draft));
        self.dial("overlapping", |draft, random| {
            play(draft, random, &OVERLAPPING, 20_000)
        });
        self.dial("nested", |draft, random| {
            play(draft, random, &NESTED, 14_000)
        });
        self.dial("crowded", |draft, random| {
            play(draft, random, &CROWDED, 14_000)
        });
        self.dial("apart", |draft, random| play(draft, random, &APART, 10_000));
        self.dial("last_places", |draft, random| {
            play(draft, random, &LAST_PLACES, 10_000)
        });
        self.dial("marked_noise", script::marked_noise);
        self.dial("whole_32768", |draft, random| {
            play(draft, random, &OVERLAPPING, MOST_BYTES - 8);
            script::fill(draft, random, MOST_BYTES);
        });
        self.dial("damaged_32768", |draft, random| {
            play(draft, random, &CROWDED, MOST_BYTES - 18);
            script::fill(draft, random, MOST_BYTES - 10);
            draft.damage(b"KTA\x00\x01\x00\x01\x00\x00\x00");
        });
        self.dial("long_32769", |draft, random| {
            play(draft, random, &APART, MOST_BYTES - 8);
            script::fill(draft, random, MOST_BYTES);
            draft.damage(b"K");
        });
        for (word, phase) in PHASES {
            self.dial(&format!("whole_{word}"), |draft, random| {
                play(draft, random, &OVERLAPPING, 300);
                draft.bring_to(phase);
            });
            for (damage, bytes) in script::damages(&mut self.random(), phase) {
                self.dial(&format!("{damage}_{word}"), |draft, random| {
                    play(draft, random, &OVERLAPPING, 300);
                    draft.bring_to(phase);
                    draft.damage(&bytes);
                });
            }
        }
        let noise = self.random().bytes(2_000);
        self.keep(RANDOM_BYTES, noise);
        self.packet(48, 7_000, b"");
        self.packet(96, 7_000, b"KT");
        self.packet(480, 5_000, b"XTS");
    }
}

/// Whether a shift has made a write and has another left.
fn is_amid_a_shift<Device: SlotDevice>(draft: &Draft<Device>) -> bool {
    draft.board().phase() == Phase::Shifting && draft.board().writes_made() > Some(0)
}
