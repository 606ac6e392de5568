//! What the calls answer.

use crate::ffi;
use core::cmp::Ordering;
use core::fmt;

/// Why a call is refused. Nothing that was lent has changed then.
#[derive(Clone, Copy, Debug, PartialEq, Eq, Hash)]
#[non_exhaustive]
pub enum Refusal {
    /// 1: n outside 1 to 16, or a table, or a row, not of the length for n.
    Sizes,
    /// 2: tables or image break a rule, first at this pair of stations.
    Fault {
        /// The station whose record is at fault.
        at: u32,
        /// The station that the fault is about; `at` itself for its clock, sets and own height.
        with: u32,
    },
    /// 3: no station of 1 to n, or an event that names one station twice.
    Station,
    /// 4: up on a channel that is up.
    AlreadyUp,
    /// 5: down on a channel that is down.
    AlreadyDown,
    /// 6: receipt from a channel with no message.
    NoMessage,
    /// 7: the clock would pass its end: it is there, or the stamp received is.
    ClockEnd,
    /// 8: the depth would leave -32,768 to 32,767.
    DepthEnd,
    /// 9: a channel to be sent on already holds 8 messages.
    ChannelFull,
    /// 10: image under 4 bytes.
    ImageShort,
    /// 11: version, header length, station count or spare bits of an image.
    ImageHeader,
    /// 12: image cut off, or longer than its plot, or a pad bit set.
    ImageEnd,
    /// 13: the station's record does not start at the place that was saved.
    Place,
    /// 14: output room too small.
    Room,
    /// 16: a text that is no sketch, or one of more than 16 stations.
    SketchForm,
    /// 17: a sketch links to 0, above n, a station to itself, or two stations twice, in either order.
    SketchLink,
    /// 18: tables or image break no rule but hold a time later than its clock or stamp, first at this pair of stations.
    Untimely {
        /// The station against whose clock the times are held.
        at: u32,
        /// The station that the view or the channel is of; `at` itself for its own height.
        with: u32,
    },
    /// 19: histories of more than 3 stations, or of more than 5 events.
    TooLarge,
    /// A number that this crate does not know, from a newer library.
    Other(u32),
}

impl Refusal {
    /// The returned number.
    pub fn number(self) -> u32 {
        match self {
            Refusal::Sizes => 1,
            Refusal::Fault { .. } => 2,
            Refusal::Station => 3,
            Refusal::AlreadyUp => 4,
            Refusal::AlreadyDown => 5,
            Refusal::NoMessage => 6,
            Refusal::ClockEnd => 7,
            Refusal::DepthEnd => 8,
            Refusal::ChannelFull => 9,
            Refusal::ImageShort => 10,
            Refusal::ImageHeader => 11,
            Refusal::ImageEnd => 12,
            Refusal::Place => 13,
            Refusal::Room => 14,
            Refusal::SketchForm => 16,
            Refusal::SketchLink => 17,
            Refusal::Untimely { .. } => 18,
            Refusal::TooLarge => 19,
            Refusal::Other(number) => number,
        }
    }

    /// `Ok` for 0.
    pub(crate) fn check(number: u32, at: u32, with: u32) -> Result<(), Refusal> {
        Err(match number {
            0 => return Ok(()),
            1 => Refusal::Sizes,
            2 => Refusal::Fault { at, with },
            3 => Refusal::Station,
            4 => Refusal::AlreadyUp,
            5 => Refusal::AlreadyDown,
            6 => Refusal::NoMessage,
            7 => Refusal::ClockEnd,
            8 => Refusal::DepthEnd,
            9 => Refusal::ChannelFull,
            10 => Refusal::ImageShort,
            11 => Refusal::ImageHeader,
            12 => Refusal::ImageEnd,
            13 => Refusal::Place,
            14 => Refusal::Room,
            16 => Refusal::SketchForm,
            17 => Refusal::SketchLink,
            18 => Refusal::Untimely { at, with },
            19 => Refusal::TooLarge,
            other => Refusal::Other(other),
        })
    }
}

impl fmt::Display for Refusal {
    fn fmt(&self, f: &mut fmt::Formatter<'_>) -> fmt::Result {
        let why = match self {
            Refusal::Sizes => "n is not 1 to 16, or a length is not that for n",
            Refusal::Fault { at, with } => return write!(f, "2: a rule is broken at {at} {with}"),
            Refusal::Station => "no such station, or one named twice",
            Refusal::AlreadyUp => "the channel is up",
            Refusal::AlreadyDown => "the channel is down",
            Refusal::NoMessage => "no message waits",
            Refusal::ClockEnd => "the clock, or the stamp received, is at its end",
            Refusal::DepthEnd => "the depth is at its end",
            Refusal::ChannelFull => "a channel is full",
            Refusal::ImageShort => "the image is under 4 bytes",
            Refusal::ImageHeader => "the image's header is wrong",
            Refusal::ImageEnd => "the image's end is wrong",
            Refusal::Place => "the station's record is elsewhere",
            Refusal::Room => "the room is too small",
            Refusal::SketchForm => "the text is no sketch of 1 to 16 stations",
            Refusal::SketchLink => "the sketch has a link to no station, to itself, or named twice",
            Refusal::Untimely { at, with } => {
                return write!(
                    f,
                    "18: a time is later than its clock or stamp at {at} {with}"
                )
            }
            Refusal::TooLarge => "histories are listed up to 3 stations and 5 events",
            Refusal::Other(_) => "a number that this crate does not know",
        };
        write!(f, "{}: {why}", self.number())
    }
}

impl core::error::Error for Refusal {}

/// A set of stations.
#[derive(Clone, Copy, Debug, Default, PartialEq, Eq, Hash)]
pub struct Stations(u16);

impl Stations {
    /// Station k is at the bit worth 2^(k - 1).
    pub fn bits(self) -> u16 {
        self.0
    }

    /// Whether station k is in the set.
    pub fn contains(self, k: u32) -> bool {
        (1..=16).contains(&k) && self.0 >> (k - 1) & 1 == 1
    }

    /// How many stations are in the set.
    pub fn count(self) -> u32 {
        self.0.count_ones()
    }

    /// The stations of the set, ascending.
    pub fn iter(self) -> impl Iterator<Item = u32> {
        (1..=16).filter(move |&k| self.contains(k))
    }

    pub(crate) fn from_word(word: u32) -> Stations {
        Stations(word as u16)
    }
}

/// A reference level.
#[derive(Clone, Copy, Debug, PartialEq, Eq, Hash)]
pub struct Level {
    /// Search time.
    pub search_time: u32,
    /// The station that started the search, 0 for none.
    pub originator: u32,
    /// The reflection bit: 1 if the level is reflected. 0 or 1 in tables that pass the check, any word in others.
    pub bit: u32,
}

/// What an accepted event did. The names are those of the algorithm's subroutines.
#[derive(Clone, Copy, Debug, PartialEq, Eq, Hash)]
#[non_exhaustive]
pub enum Rule {
    /// U: the channel is up, and the station's height went along it.
    ChannelUp,
    /// E: the station elected itself: alone, or its search came back from everywhere.
    ElectSelf,
    /// S: the station lost its way to the collector and started a search.
    StartNewRefLevel,
    /// Q: nothing to do.
    NoChange,
    /// I: the sender is in neither set; only the clock moved, past the stamp as at any receipt.
    Ignored,
    /// F: the search was sent back.
    ReflectRefLevel,
    /// P: the largest level of the views was taken, and the search passed on.
    PropagateLargestRefLevel(Level),
    /// A: the collector of this station, the more recent, was adopted.
    AdoptLpIfPriority(u32),
    /// R: the sender's collector is the older one; the station sent it its own height.
    Reply,
    /// A letter that this crate does not know, from a newer library.
    Other(char),
}

impl Rule {
    /// One of U E S Q I F P A R, or another of a newer library.
    pub fn letter(self) -> char {
        match self {
            Rule::ChannelUp => 'U',
            Rule::ElectSelf => 'E',
            Rule::StartNewRefLevel => 'S',
            Rule::NoChange => 'Q',
            Rule::Ignored => 'I',
            Rule::ReflectRefLevel => 'F',
            Rule::PropagateLargestRefLevel(_) => 'P',
            Rule::AdoptLpIfPriority(_) => 'A',
            Rule::Reply => 'R',
            Rule::Other(letter) => letter,
        }
    }

    fn of(a: &ffi::Answer) -> Rule {
        match char::from_u32(a.rule).unwrap_or(char::REPLACEMENT_CHARACTER) {
            'U' => Rule::ChannelUp,
            'E' => Rule::ElectSelf,
            'S' => Rule::StartNewRefLevel,
            'Q' => Rule::NoChange,
            'I' => Rule::Ignored,
            'F' => Rule::ReflectRefLevel,
            'P' => Rule::PropagateLargestRefLevel(Level {
                search_time: a.level_tau,
                originator: a.level_originator,
                bit: a.level_bit,
            }),
            'A' => Rule::AdoptLpIfPriority(a.adopted_from),
            'R' => Rule::Reply,
            other => Rule::Other(other),
        }
    }
}

/// An accepted event.
#[derive(Clone, Copy, Debug, PartialEq, Eq, Hash)]
pub struct Step {
    /// What it did.
    pub rule: Rule,
    /// Whom a message was sent to.
    pub sent_to: Stations,
    /// How many messages were sent.
    pub sent: u32,
}

impl Step {
    pub(crate) fn of(a: ffi::Answer) -> Result<Step, Refusal> {
        Refusal::check(a.number, a.fault_at, a.fault_with)?;
        Ok(Step {
            rule: Rule::of(&a),
            sent_to: Stations::from_word(a.sent_to),
            sent: a.sent,
        })
    }
}

/// A station's clock and both sets.
#[derive(Clone, Copy, Debug, PartialEq, Eq, Hash)]
pub struct Record {
    /// Its clock.
    pub clock: u32,
    /// The linked set N.
    pub linked: Stations,
    /// The forming set F.
    pub forming: Stations,
}

/// A height: level, depth, leader pair, and the station that it belongs to.
#[derive(Clone, Copy, Debug, PartialEq, Eq, Hash)]
pub struct Height {
    /// The reference level.
    pub level: Level,
    /// Depth.
    pub depth: i32,
    /// Election time without its sign.
    pub election_time: u32,
    /// The leader.
    pub leader: u32,
    /// The station; 0 where there is no view.
    pub station: u32,
}

impl Height {
    /// The height of seven words, as the tables and a row hold them.
    pub fn from_words(w: &[u32; 7]) -> Height {
        Height {
            level: Level {
                search_time: w[0],
                originator: w[1],
                bit: w[2],
            },
            depth: w[3] as i32,
            election_time: w[4],
            leader: w[5],
            station: w[6],
        }
    }

    /// Which of two heights is the larger, and which of the seven numbers decides it. Any numbers may be compared.
    pub fn compare(self, other: Height) -> Comparison {
        let c = ffi::compare(self.given(), other.given());
        Comparison {
            order: c.order.cmp(&0),
            place: Place::of(c.place),
        }
    }

    fn given(self) -> ffi::Height {
        ffi::Height {
            search_time: self.level.search_time,
            originator: self.level.originator,
            bit: self.level.bit,
            depth: self.depth,
            election_time: self.election_time,
            leader: self.leader,
            station: self.station,
        }
    }
}

/// How two heights compare.
#[derive(Clone, Copy, Debug, PartialEq, Eq, Hash)]
pub struct Comparison {
    /// Whether the first is less, equal or greater. A link leads from the greater own height to the lesser.
    pub order: Ordering,
    /// The first number that differs; `None` exactly when the heights are equal.
    pub place: Option<Place>,
}

/// One of a height's seven numbers, by its place in the order.
#[derive(Clone, Copy, Debug, PartialEq, Eq, PartialOrd, Ord, Hash)]
pub enum Place {
    /// 1: search time.
    SearchTime = 1,
    /// 2: originator.
    Originator,
    /// 3: reflection bit.
    Bit,
    /// 4: depth.
    Depth,
    /// 5: election time. It counts with a minus sign: the later election is the lesser.
    ElectionTime,
    /// 6: leader.
    Leader,
    /// 7: station.
    Station,
}

impl Place {
    /// The seven, in their order.
    pub const ALL: [Place; 7] = [
        Place::SearchTime,
        Place::Originator,
        Place::Bit,
        Place::Depth,
        Place::ElectionTime,
        Place::Leader,
        Place::Station,
    ];

    /// 1 to 7.
    pub fn number(self) -> u32 {
        self as u32
    }

    fn of(number: u32) -> Option<Place> {
        Place::ALL.into_iter().find(|p| p.number() == number)
    }
}

impl fmt::Display for Place {
    fn fmt(&self, f: &mut fmt::Formatter<'_>) -> fmt::Result {
        f.write_str(match self {
            Place::SearchTime => "search time",
            Place::Originator => "originator",
            Place::Bit => "bit",
            Place::Depth => "depth",
            Place::ElectionTime => "election time",
            Place::Leader => "leader",
            Place::Station => "station",
        })
    }
}

/// A linked group, and the collectors in it.
#[derive(Clone, Copy, Debug, PartialEq, Eq, Hash)]
pub struct Group {
    /// The stations of the group.
    pub members: Stations,
    /// Those of them that are collectors.
    pub collectors: Stations,
    /// The collector, if there is exactly one; on a quiet plot there is.
    pub collector: Option<u32>,
}

impl Group {
    pub(crate) fn of(g: ffi::Group) -> Result<Group, Refusal> {
        Refusal::check(g.number, g.fault_at, g.fault_with)?;
        Ok(Group {
            members: Stations::from_word(g.members),
            collectors: Stations::from_word(g.collectors),
            collector: (g.collector != 0).then_some(g.collector),
        })
    }
}

#[cfg(test)]
mod tests {
    use super::*;

    const DONE: ffi::Answer = ffi::Answer {
        number: 0,
        fault_at: 0,
        fault_with: 0,
        rule: 'Q' as u32,
        sent_to: 0,
        sent: 0,
        adopted_from: 0,
        level_tau: 0,
        level_originator: 0,
        level_bit: 0,
    };

    /// A newer library may answer a number or a letter that is not known here.
    #[test]
    fn unknown_numbers_and_letters() {
        for number in [15, 20, u32::MAX] {
            let newer = ffi::Answer { number, ..DONE };
            assert_eq!(Step::of(newer), Err(Refusal::Other(number)));
            assert_eq!(Refusal::Other(number).number(), number);
        }
        for (rule, letter) in [('Z' as u32, 'Z'), (0xd800, '\u{fffd}')] {
            let step = Step::of(ffi::Answer { rule, ..DONE }).unwrap();
            assert_eq!(
                (step.rule, step.rule.letter()),
                (Rule::Other(letter), letter)
            );
        }
    }

    /// The level of rule P comes over whole.
    #[test]
    fn a_level_taken() {
        let taken = ffi::Answer {
            rule: 'P' as u32,
            level_tau: 8,
            level_originator: 6,
            level_bit: 1,
            ..DONE
        };
        let level = Level {
            search_time: 8,
            originator: 6,
            bit: 1,
        };
        let rule = Step::of(taken).map(|step| step.rule);
        assert_eq!(rule, Ok(Rule::PropagateLargestRefLevel(level)));
    }

    #[test]
    fn every_number_is_itself() {
        assert_eq!(Refusal::check(0, 0, 0), Ok(()));
        for number in 1..=20 {
            let refusal = Refusal::check(number, 1, 2).unwrap_err();
            assert_eq!(refusal.number(), number);
            let known = (1..=19).contains(&number) && number != 15;
            assert_eq!(refusal != Refusal::Other(number), known);
        }
        let (at, with) = (1, 2);
        for (number, paired) in [
            (2, Refusal::Fault { at, with }),
            (18, Refusal::Untimely { at, with }),
        ] {
            assert_eq!(Refusal::check(number, at, with), Err(paired));
        }
    }
}
