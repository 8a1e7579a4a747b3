//! The second implementation, asked in the words of the product's interface.

use second::{Board, Refusal, Rule, SlotDevice, Words};

use crate::interface::{Answer, Call, Record, Ticket};

impl From<Record> for Rule {
    fn from(record: Record) -> Rule {
        Rule {
            number: record.number,
            priority: record.priority,
            action: record.action,
            words: Words {
                a: record.word_a,
                b: record.word_b,
            },
        }
    }
}

impl From<Rule> for Record {
    fn from(rule: Rule) -> Record {
        Record {
            number: rule.number,
            priority: rule.priority,
            action: rule.action,
            word_a: rule.words.a,
            word_b: rule.words.b,
        }
    }
}

impl PartialEq<Rule> for Record {
    fn eq(&self, rule: &Rule) -> bool {
        *self == Record::from(*rule)
    }
}

impl From<Ticket> for second::Ticket {
    fn from(ticket: Ticket) -> second::Ticket {
        second::Ticket {
            board: ticket.board,
            rule: ticket.rule,
            length: usize::from(ticket.length),
        }
    }
}

impl From<second::Ticket> for Ticket {
    fn from(ticket: second::Ticket) -> Ticket {
        Ticket {
            board: ticket.board,
            rule: ticket.rule,
            length: u16::try_from(ticket.length).expect("a chain has at most 480 slots"),
        }
    }
}

/// Makes the call on a board of the second implementation.
pub fn answer<Device: SlotDevice>(board: &mut Board<Device>, call: &Call) -> Answer {
    carry_out(board, call).unwrap_or_else(|refusal| Answer {
        refusal: u32::from(refusal.number()),
        ..Answer::default()
    })
}

fn carry_out<Device: SlotDevice>(
    board: &mut Board<Device>,
    call: &Call,
) -> Result<Answer, Refusal> {
    let ticket = second::Ticket::from(call.ticket);
    match call.letter {
        b'A' => {
            let ticket = Ticket::from(board.add(Rule::from(call.rule))?);
            Ok(Answer {
                ticket,
                ..of_value(u32::from(ticket.length))
            })
        }
        b'S' => Ok(of_count(board.step(ticket)?)),
        b'E' => Ok(of_count(board.complete(ticket)?)),
        b'W' => Ok(of_value(u32::from(board.withdraw(ticket)?))),
        b'D' => {
            board.drop(call.rule.number)?;
            Ok(Answer::default())
        }
        b'C' => {
            board.change(call.rule.number, call.rule.action)?;
            Ok(Answer::default())
        }
        b'L' => {
            let found = board.look_up(call.subject)?;
            Ok(found.map_or_else(Answer::default, |found| Answer {
                number: found.number,
                ..of_value(found.action)
            }))
        }
        _ => Err(Refusal::StrangeLetter),
    }
}

fn of_value(value: u32) -> Answer {
    Answer {
        value,
        ..Answer::default()
    }
}

fn of_count(count: usize) -> Answer {
    of_value(u32::try_from(count).expect("at most 480 writes"))
}

#[cfg(test)]
mod tests {
    use super::*;
    use second::ChipImage;

    fn call(letter: u8) -> Call {
        Call {
            letter,
            ..Call::default()
        }
    }

    #[test]
    fn every_letter_answers_as_the_header_says() {
        let mut words = [0; 144];
        let mut board = Board::open(ChipImage::new(&mut words), 5);
        let rule = Record {
            number: 9,
            priority: 1,
            action: 77,
            word_a: 0x10,
            word_b: 0xF0,
        };
        let opened = answer(&mut board, &Call { rule, ..call(b'A') });
        let ticket = Ticket {
            board: 5,
            rule: 9,
            length: 1,
        };
        assert_eq!(
            opened,
            Answer {
                ticket,
                ..of_value(1)
            }
        );
        let refused = |refusal| Answer {
            refusal,
            ..Answer::default()
        };
        assert_eq!(answer(&mut board, &Call { rule, ..call(b'A') }), refused(1));
        assert_eq!(answer(&mut board, &call(b'S')), refused(9));
        assert_eq!(
            answer(
                &mut board,
                &Call {
                    ticket,
                    ..call(b'S')
                }
            ),
            of_value(0)
        );
        assert_eq!(
            answer(
                &mut board,
                &Call {
                    ticket,
                    ..call(b'S')
                }
            ),
            refused(10)
        );
        assert_eq!(
            answer(
                &mut board,
                &Call {
                    ticket,
                    ..call(b'W')
                }
            ),
            of_value(1)
        );
        let subject = Call {
            subject: 0x1F,
            ..call(b'L')
        };
        let found = Answer {
            number: 9,
            ..of_value(77)
        };
        assert_eq!(answer(&mut board, &subject), found);
        assert_eq!(answer(&mut board, &call(b'L')), Answer::default());
        assert_eq!(
            answer(&mut board, &Call { rule, ..call(b'C') }),
            Answer::default()
        );
        assert_eq!(
            answer(&mut board, &Call { rule, ..call(b'D') }),
            Answer::default()
        );
        assert_eq!(answer(&mut board, &Call { rule, ..call(b'D') }), refused(7));
        for letter in [0, b'a', b'B', 255] {
            assert_eq!(answer(&mut board, &call(letter)), refused(13));
        }
    }
}
