//! Document 01, "Returned numbers": the fifteen refusals; and those of requests [2], [3] and [6] of
//! document 02.

/// The rows of the table, in its order (01, 5.3 to 5.17), then 16 and 17 (02, [2]), 18 (02, [3]) and 19
/// (02, [6]). After each of them nothing lent has changed (5.2).
#[derive(Clone, Copy, Debug, PartialEq, Eq)]
pub enum Refusal {
    /// 1: n, or the length of a lent table (01, 5.3)
    Sizes,
    /// 2, with the pair: a broken rule (01, 5.4)
    Fault { u: i64, v: i64 },
    /// 3: no such station, or one named twice (01, 5.5)
    Station,
    /// 4: the channel was up already (01, 5.6)
    AlreadyUp,
    /// 5: the channel was down already (01, 5.7)
    AlreadyDown,
    /// 6: no message waits (01, 5.8)
    NoMessage,
    /// 7: the clock is at its end (01, 5.9)
    ClockEnd,
    /// 8: the depth is at its end (01, 5.10)
    DepthEnd,
    /// 9: a full channel (01, 5.11)
    ChannelFull,
    /// 10: below 4 bytes (01, 5.12)
    ImageShort,
    /// 11: the header (01, 5.13)
    ImageHeader,
    /// 12: end and pad (01, 5.14)
    ImageEnd,
    /// 13: the saved place (01, 5.15)
    Place,
    /// 14: the room (01, 5.16)
    Room,
    /// 15: a line of the bench (01, 5.17)
    BenchLine,
    /// 16: a text that is no sketch (02, [2])
    SketchForm,
    /// 17: a link that a sketch must not name (02, [2])
    SketchLink,
    /// 18, with the pair: a time beyond its clock or its stamp (02, [3])
    Untimely { u: i64, v: i64 },
    /// 19: too many stations or events for a list of short histories (02, [6])
    NotShort,
}

impl Refusal {
    /// The number.
    pub fn number(self) -> i64 {
        match self {
            Refusal::Sizes => 1,
            Refusal::Fault { .. } => 2,
            Refusal::Station => 3,
            Refusal::AlreadyUp => 4,
            Refusal::AlreadyDown => 5,
            Refusal::NoMessage => 6,
            Refusal::ClockEnd => 7,
            Refusal::DepthEnd => 8,
            Refusal::ChannelFull => 9,
            Refusal::ImageShort => 10,
            Refusal::ImageHeader => 11,
            Refusal::ImageEnd => 12,
            Refusal::Place => 13,
            Refusal::Room => 14,
            Refusal::BenchLine => 15,
            Refusal::SketchForm => 16,
            Refusal::SketchLink => 17,
            Refusal::Untimely { .. } => 18,
            Refusal::NotShort => 19,
        }
    }

    /// The pair of 2, the first fault (01, 5.19), or of 18.
    pub fn pair(self) -> Option<(i64, i64)> {
        match self {
            Refusal::Fault { u, v } | Refusal::Untimely { u, v } => Some((u, v)),
            _ => None,
        }
    }
}
