//! A second implementation of the exchange's table, written from docs/RULES.md alone.
//!
//! It is meant to be plain and obviously right. Where the rules say a thing in words, the code says
//! the same thing in the same order, even where something faster is known.
//!
//! ```
//! use second::{Board, ChipImage, Rule, SortedTable, Words};
//!
//! let mut words = vec![0u64; 144];
//! let mut board = Board::open(ChipImage::new(&mut words), 1);
//! let rule = Rule { number: 1, priority: 10, action: 100, words: Words { a: 0x10, b: 0xF0 } };
//! let ticket = board.add(rule).unwrap();
//! assert_eq!(board.complete(ticket), Ok(1));
//! assert_eq!(board.look_up(0x1F).unwrap().unwrap().action, 100);
//! board.drop(1).unwrap();
//!
//! let mut words = vec![0u64; 144];
//! let mut sorted = SortedTable::open(ChipImage::new(&mut words));
//! assert_eq!(sorted.add(rule), Ok(1));
//! ```

pub mod board;
pub mod chip_image;
pub mod corpus;
pub mod coverage;
pub mod device;
pub mod dial;
pub mod draft;
pub mod kind;
pub mod order;
pub mod order_file;
pub mod packet;
pub mod pair;
pub mod play;
pub mod program;
pub mod random;
pub mod record_bank;
pub mod recorder;
pub mod refusal;
pub mod rule;
pub mod script;
pub mod session;
pub mod sorted_table;
pub mod style;
pub mod table;

pub use board::{Board, Phase, Ticket};
pub use chip_image::ChipImage;
pub use device::SlotDevice;
pub use dial::Dial;
pub use kind::Kind;
pub use packet::Packet;
pub use pair::Pair;
pub use record_bank::RecordBank;
pub use recorder::Recorder;
pub use refusal::Refusal;
pub use rule::{Rule, Words};
pub use sorted_table::SortedTable;
