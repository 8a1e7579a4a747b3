//! The worked cases of the rules that need a board. Those of kinds and devices stand beside them.

use second::program::dial_lines;
use second::recorder::Event;
use second::{Board, Dial, RecordBank, Recorder, Refusal, Rule};

fn rule(number: u16, signs: &str, priority: u16) -> Rule {
    Rule {
        number,
        priority,
        action: 100 * u32::from(number),
        words: Dial::pattern(signs).unwrap(),
    }
}

fn have<'records>(board: &mut Board<Recorder<RecordBank<'records>>>, rule: Rule) {
    let ticket = board.add(rule).unwrap();
    board.complete(ticket).unwrap();
}

fn board(records: &mut [Rule]) -> Board<Recorder<RecordBank<'_>>> {
    Board::open(Recorder::new(RecordBank::new(records)), 7)
}

fn numbers(board: &Board<Recorder<RecordBank<'_>>>) -> Vec<u16> {
    board
        .slots()
        .iter()
        .map(|slot| slot.map_or(0, |rule| rule.number))
        .collect()
}

#[test]
fn case_7() {
    let mut records = [Rule::ZERO];
    let mut board = board(&mut records);
    have(&mut board, rule(1, "9!", 10));
    assert_eq!(board.add(rule(2, "90", 20)), Err(Refusal::NoSlot));
    assert_eq!(board.add(rule(2, "90", 10)), Err(Refusal::Tied));
}

/// The example with the chain 0, 1, 3, write by write.
#[test]
fn case_8() {
    let mut records = [Rule::ZERO; 4];
    let mut board = board(&mut records);
    let (one, two, three) = (rule(1, "1X", 40), rule(2, "2X", 30), rule(3, "10", 20));
    let new = rule(4, "!", 50);
    for rule in [one, two, three] {
        have(&mut board, rule);
    }
    assert_eq!(numbers(&board), [1, 2, 3, 0]);
    let before = board.device().events().len();
    let ticket = board.add(new).unwrap();
    assert_eq!((ticket.board, ticket.rule, ticket.length), (7, 4, 3));
    assert_eq!(board.open_chain(), Some([0, 1, 3].as_slice()));
    assert_eq!(
        board.device().events().len(),
        before,
        "an add writes nothing"
    );
    assert_eq!(board.step(ticket), Ok(2));
    assert_eq!(numbers(&board), [1, 2, 3, 2]);
    assert_eq!(board.step(ticket), Ok(1));
    assert_eq!(numbers(&board), [1, 1, 3, 2]);
    assert_eq!(board.step(ticket), Ok(0));
    assert_eq!(numbers(&board), [4, 1, 3, 2]);
    assert_eq!(
        board.device().events()[before..],
        [
            Event::Write { slot: 3, rule: two },
            Event::Write { slot: 1, rule: one },
            Event::Write { slot: 0, rule: new },
        ]
    );
    assert_eq!(board.step(ticket), Err(Refusal::RunOut));
    assert_eq!(
        board.complete(ticket),
        Ok(3),
        "the announced count, though none were left"
    );
}

fn add_order(number: u16, priority: u16, action: u32, signs: &str) -> Vec<u8> {
    let mut bytes = b"KTA".to_vec();
    bytes.extend(number.to_be_bytes());
    bytes.extend(priority.to_be_bytes());
    bytes.extend(action.to_be_bytes());
    bytes.extend(Dial::word(signs).unwrap().to_be_bytes());
    bytes.extend([0; 8]);
    bytes
}

fn look_up_90() -> Vec<u8> {
    b"KTL\x90\xFF\xFF\xFF\xFF\xFF\xFF\xFF".to_vec()
}

#[test]
fn case_10() {
    let file = [
        add_order(1, 10, 100, "9!"),
        b"KTE".to_vec(),
        add_order(2, 20, 200, "90"),
        b"KTS".to_vec(),
        look_up_90(),
        b"KTE".to_vec(),
        look_up_90(),
    ]
    .concat();
    let expected = "\
A 0 0 1
E 27 0 1
A 30 0 2
S 57 0 1
L 60 0 100
E 71 0 2
L 74 0 200
";
    assert_eq!(dial_lines(&file), expected);
}

#[test]
fn case_11() {
    let mut records = [Rule::ZERO; 6];
    let mut board = board(&mut records);
    have(&mut board, rule(1, "9!", 10));
    let ticket = board.add(rule(2, "90", 20)).unwrap();
    assert_eq!(board.step(ticket), Ok(1));
    assert_eq!(numbers(&board), [1, 1, 0, 0, 0, 0]);
    assert_eq!(board.withdraw(ticket), Ok(false));
    assert_eq!(numbers(&board), [1, 0, 0, 0, 0, 0]);
    board.give_up();
    assert_eq!(records[0], rule(1, "9!", 10));
    assert_eq!(records[1..], [Rule::ZERO; 5]);
}
