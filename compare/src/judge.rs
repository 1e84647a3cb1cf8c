//! Whether the library did with a sheet what is due: what the second opinion says, or what the library did before a change.

use crate::cases::Case;
use crate::harness::{fill, Deed, UNTOUCHED};
use second::Answer;

/// A way to spoil one of the answers that are due, to see that the comparison fails when it should.
#[derive(Clone, Copy, PartialEq, Debug)]
pub enum Damage {
    Refusal,
    Accepted,
    Line,
    Field,
    Length,
    FirstByte,
    LastByte,
    ByteBeyond,
    RoomOfRefused,
}

impl Damage {
    pub fn named(name: &str) -> Option<Damage> {
        use Damage::*;
        let named = [
            ("refusal", Refusal),
            ("accepted", Accepted),
            ("line", Line),
            ("field", Field),
            ("length", Length),
            ("first-byte", FirstByte),
            ("last-byte", LastByte),
            ("byte-beyond", ByteBeyond),
            ("room-of-refused", RoomOfRefused),
        ];
        named.iter().find(|(other, _)| *other == name).map(|(_, damage)| *damage)
    }

    /// True where the answer could be spoilt in this way.
    pub fn spoil(self, due: &mut Deed) -> bool {
        let Answer { refusal, line, field, length } = due.answer;
        let refused = refusal != 0;
        match self {
            Damage::Refusal if refused => due.answer.refusal -= 1,
            Damage::Accepted if refused => due.answer = Answer { refusal: 0, line: 0, field: 0, length: 0 },
            Damage::Line if line > 0 => due.answer.line += 1,
            Damage::Field if field > 0 => due.answer.field += 1,
            Damage::Length if !refused => due.answer.length += 1,
            Damage::FirstByte if !refused => due.room[0] ^= 1,
            Damage::LastByte if !refused => due.room[length - 1] ^= 1,
            Damage::ByteBeyond if !refused && due.room.len() > length => due.room[length] ^= 1,
            Damage::RoomOfRefused if refused && !due.room.is_empty() => due.room[0] ^= 1,
            _ => return false,
        }
        true
    }
}

/// What the second opinion says is due for a sheet that is the harness's request of this number.
pub fn due(case: &Case, request: u64) -> Deed {
    let mut room = vec![0; case.room];
    fill(request, &mut room);
    let answer = second::answer(&case.sheet, &mut room);
    Deed { answer, touched: UNTOUCHED, room }
}

/// What was touched that should not have been is no agreement, even where both have.
pub fn agree(due: &Deed, deed: &Deed) -> bool {
    due.touched == UNTOUCHED && deed.touched == UNTOUCHED && due.answer == deed.answer && due.room == deed.room
}
