//! The corners of the refusals and the table of calls and phases.

use second::recorder::Event;
use second::{
    Board, ChipImage, Dial, Pair, Phase, RecordBank, Recorder, Refusal, Rule, SlotDevice,
};
use second::{Ticket, Words};

type DialBoard<'records> = Board<Recorder<RecordBank<'records>>>;

const BOARD: u16 = 3;

fn rule(number: u16, signs: &str, priority: u16) -> Rule {
    Rule {
        number,
        priority,
        action: 100 * u32::from(number),
        words: Dial::pattern(signs).unwrap(),
    }
}

fn open(records: &mut [Rule]) -> DialBoard<'_> {
    Board::open(Recorder::new(RecordBank::new(records)), BOARD)
}

fn have(board: &mut DialBoard, rule: Rule) {
    let ticket = board.add(rule).unwrap();
    board.complete(ticket).unwrap();
}

fn numbers(board: &DialBoard) -> Vec<u16> {
    board
        .slots()
        .iter()
        .map(|slot| slot.map_or(0, |rule| rule.number))
        .collect()
}

fn subject(signs: &str) -> u64 {
    Dial::word(signs).unwrap()
}

/// Adds that must be refused, and must leave everything as it was.
fn refuses(board: &mut DialBoard, rule: Rule, refusal: Refusal) {
    let before = (
        board.slots(),
        board.device().events().to_vec(),
        board.rules_in_force().to_vec(),
    );
    assert_eq!(board.add(rule), Err(refusal));
    let after = (
        board.slots(),
        board.device().events().to_vec(),
        board.rules_in_force().to_vec(),
    );
    assert_eq!(before, after);
    assert_eq!(board.phase(), Phase::Idle);
}

#[test]
fn low_is_n_and_the_span_is_not_crossed() {
    let mut records = [Rule::ZERO; 1];
    let mut board = open(&mut records);
    have(&mut board, rule(1, "!", 10));
    refuses(&mut board, rule(2, "9", 5), Refusal::NoSlot);
}

#[test]
fn crossed_by_two_rules_that_do_not_meet_each_other() {
    let mut records = [Rule::ZERO; 3];
    let mut board = open(&mut records);
    have(&mut board, rule(1, "1", 1));
    have(&mut board, rule(2, "2", 9));
    refuses(&mut board, rule(3, "X", 5), Refusal::Crossed);
    have(&mut board, rule(4, "*", 5));
    assert_eq!(numbers(&board), [1, 2, 4]);
    refuses(&mut board, rule(3, "X", 5), Refusal::Crossed);
    refuses(&mut board, rule(3, "!", 5), Refusal::Tied);
}

#[test]
fn no_slot_although_a_slot_before_low_is_free() {
    let mut records = [Rule::ZERO; 2];
    let mut board = open(&mut records);
    have(&mut board, rule(1, "5", 20));
    have(&mut board, rule(2, "!", 9));
    board.drop(1).unwrap();
    assert_eq!(numbers(&board), [0, 2]);
    refuses(&mut board, rule(3, "9", 5), Refusal::NoSlot);
}

#[test]
fn a_full_span_is_no_refusal_if_a_chain_leads_on() {
    let mut records = [Rule::ZERO; 3];
    let mut board = open(&mut records);
    have(&mut board, rule(1, "9!", 10));
    have(&mut board, rule(2, "9X", 5));
    let ticket = board.add(rule(3, "90", 20)).unwrap();
    assert_eq!(board.open_chain(), Some([0, 1, 2].as_slice()));
    assert_eq!(board.complete(ticket), Ok(3));
    assert_eq!(numbers(&board), [3, 1, 2]);
}

#[test]
fn a_board_without_slots() {
    let mut board = open(&mut []);
    refuses(&mut board, rule(0, "1", 1), Refusal::Mangled);
    refuses(&mut board, rule(1, "!!", 1), Refusal::Mangled);
    refuses(&mut board, rule(1, "1", 1), Refusal::NoSlot);
    assert_eq!(board.drop(1), Err(Refusal::Unknown));
    assert_eq!(board.look_up(subject("1")), Ok(None));
    assert_eq!(board.look_up(subject("X")), Err(Refusal::Misdialled));
}

#[test]
fn adding_again_a_rule_in_force_is_known() {
    let mut records = [Rule::ZERO; 2];
    let mut board = open(&mut records);
    have(&mut board, rule(1, "1", 1));
    refuses(&mut board, rule(1, "1", 1), Refusal::Known);
    refuses(&mut board, rule(1, "2", 2), Refusal::Known);
    refuses(&mut board, rule(1, "!!", 2), Refusal::Mangled);
    refuses(
        &mut board,
        Rule {
            words: Words { a: 0, b: 1 },
            ..rule(2, "", 2)
        },
        Refusal::Mangled,
    );
}

#[test]
fn drop_of_0() {
    let mut records = [Rule::ZERO; 2];
    let mut board = open(&mut records);
    assert_eq!(board.drop(0), Err(Refusal::Unknown));
    assert_eq!(board.change(0, 1), Err(Refusal::Unknown));
    let ticket = board.add(rule(1, "1", 1)).unwrap();
    assert_eq!(board.drop(0), Err(Refusal::Busy));
    assert_eq!(board.change(0, 1), Err(Refusal::Busy));
    assert_eq!(board.withdraw(ticket), Ok(false));
}

#[test]
fn a_foreign_ticket_in_every_phase() {
    let mut records = [Rule::ZERO; 2];
    let mut board = open(&mut records);
    let good = Ticket {
        board: BOARD,
        rule: 1,
        length: 1,
    };
    let foreign = [
        Ticket {
            board: BOARD + 1,
            ..good
        },
        Ticket { rule: 2, ..good },
        Ticket { length: 2, ..good },
        Ticket { length: 0, ..good },
    ];
    let refuse_all = |board: &mut DialBoard, tickets: &[Ticket]| {
        let before = (
            board.slots(),
            board.device().events().to_vec(),
            board.phase(),
        );
        for &ticket in tickets {
            assert_eq!(board.step(ticket), Err(Refusal::Foreign));
            assert_eq!(board.complete(ticket), Err(Refusal::Foreign));
            assert_eq!(board.withdraw(ticket), Err(Refusal::Foreign));
        }
        let after = (
            board.slots(),
            board.device().events().to_vec(),
            board.phase(),
        );
        assert_eq!(before, after);
    };
    refuse_all(&mut board, &[good]);
    refuse_all(&mut board, &foreign);
    assert_eq!(board.add(rule(1, "1", 1)), Ok(good));
    refuse_all(&mut board, &foreign);
    // A ticket is what it names: one made by hand is as good as the one that was given.
    assert_eq!(board.step(good), Ok(0));
    assert_eq!(board.phase(), Phase::Written);
    refuse_all(&mut board, &foreign);
    assert_eq!(board.step(good), Err(Refusal::RunOut));
    assert_eq!(board.withdraw(good), Ok(true));
    refuse_all(&mut board, &[good]);
}

#[test]
fn withdraw_erases_the_slot_last_written() {
    let mut records = [Rule::ZERO; 4];
    let mut board = open(&mut records);
    have(&mut board, rule(1, "1X", 40));
    have(&mut board, rule(2, "2X", 30));
    have(&mut board, rule(3, "10", 20));
    let ticket = board.add(rule(4, "!", 50)).unwrap();
    board.step(ticket).unwrap();
    board.step(ticket).unwrap();
    assert_eq!(numbers(&board), [1, 1, 3, 2]);
    assert_eq!(board.withdraw(ticket), Ok(false));
    assert_eq!(numbers(&board), [1, 0, 3, 2]);
    assert_eq!(
        board.device().events().last(),
        Some(&Event::Erase { slot: 1 })
    );
}

#[test]
fn withdraw_before_the_first_write_and_after_the_last_erases_nothing() {
    let mut records = [Rule::ZERO; 2];
    let mut board = open(&mut records);
    let before = board.device().events().len();
    let ticket = board.add(rule(1, "1", 1)).unwrap();
    assert_eq!(board.phase(), Phase::Shifting);
    assert_eq!(board.withdraw(ticket), Ok(false));
    assert_eq!(board.device().events().len(), before);
    let ticket = board.add(rule(1, "1", 1)).unwrap();
    assert_eq!(board.step(ticket), Ok(0));
    assert_eq!(board.withdraw(ticket), Ok(true));
    assert_eq!(board.device().events().len(), before + 1);
    assert_eq!(board.rules_in_force(), [rule(1, "1", 1)]);
}

#[test]
fn busy_in_both_open_phases() {
    let mut records = [Rule::ZERO; 2];
    let mut board = open(&mut records);
    have(&mut board, rule(1, "1", 1));
    let ticket = board.add(rule(2, "2", 2)).unwrap();
    for phase in [Phase::Shifting, Phase::Written] {
        assert_eq!(board.phase(), phase);
        assert_eq!(board.add(rule(0, "!!", 1)), Err(Refusal::Busy));
        assert_eq!(board.drop(1), Err(Refusal::Busy));
        assert_eq!(board.drop(9), Err(Refusal::Busy));
        assert_eq!(board.change(1, 5), Err(Refusal::Busy));
        assert_eq!(board.look_up(subject("!")), Err(Refusal::Misdialled));
        assert_eq!(board.look_up(subject("1")).unwrap().unwrap().action, 100);
        if phase == Phase::Shifting {
            board.step(ticket).unwrap();
        }
    }
    assert_eq!(board.complete(ticket), Ok(1));
    assert_eq!(board.phase(), Phase::Idle);
}

#[test]
fn a_change_is_one_write_also_to_the_same_action() {
    let mut records = [Rule::ZERO; 2];
    let mut board = open(&mut records);
    have(&mut board, rule(1, "1", 1));
    let before = board.device().events().len();
    for action in [100, 5, 5] {
        assert_eq!(board.change(1, action), Ok(()));
        assert_eq!(board.look_up(subject("1")).unwrap().unwrap().action, action);
    }
    let writes = [100, 5, 5].map(|action| Event::Write {
        slot: 0,
        rule: Rule {
            action,
            ..rule(1, "1", 1)
        },
    });
    assert_eq!(board.device().events()[before..], writes);
    assert_eq!(board.change(2, 5), Err(Refusal::Unknown));
    assert_eq!(board.drop(1), Ok(()));
    assert_eq!(
        board.device().events().last(),
        Some(&Event::Erase { slot: 0 })
    );
    assert_eq!(board.rules_in_force(), []);
}

/// Opening erases every slot once, from slot 0 up; slots from 480 on are never used after that.
#[test]
fn a_device_of_more_than_480_slots() {
    let (mut first, mut second) = (vec![u64::MAX; 1440], vec![u64::MAX; 144]);
    let pair = Pair::new(ChipImage::new(&mut first), ChipImage::new(&mut second));
    let mut board = Board::open(Recorder::new(pair), BOARD);
    assert_eq!(board.device().count(), 528);
    let erases: Vec<Event> = (0..528).map(|slot| Event::Erase { slot }).collect();
    assert_eq!(board.device().events(), erases);
    let packet = |number: u16| Rule {
        number,
        priority: 5,
        action: 0,
        words: Words {
            a: u64::from(number),
            b: u64::MAX,
        },
    };
    for number in 1..=480 {
        let ticket = board.add(packet(number)).unwrap();
        assert_eq!(board.complete(ticket), Ok(1));
    }
    assert_eq!(board.add(packet(481)), Err(Refusal::NoSlot));
    board.give_up().give_up().give_up();
    assert!(first.iter().all(|&word| word != 0));
    assert!(second.iter().all(|&word| word == 0));
}

/// A board given up in the middle of a shift leaves the device as the calls left it.
#[test]
fn giving_up_amid_a_shift() {
    let mut records = [rule(9, "9", 9); 3];
    let mut board = open(&mut records);
    have(&mut board, rule(1, "9!", 10));
    let ticket = board.add(rule(2, "90", 20)).unwrap();
    board.step(ticket).unwrap();
    board.give_up();
    assert_eq!(records, [rule(1, "9!", 10), rule(1, "9!", 10), Rule::ZERO]);
}
