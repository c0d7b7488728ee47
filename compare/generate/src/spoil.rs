//! Replies that stop a call before its course is through, and replies that no call asks for.

use case_text::Reply;

use crate::rng::Rng;

/// What is done to one reply.
#[derive(Clone, Copy, Debug, PartialEq, Eq)]
pub enum Spoil {
    /// The bus fails.
    BusError,
    /// Data where none is wanted, or none where it is.
    OtherKind,
    /// Data of another length.
    OtherLength,
    /// The script ends.
    RunOut,
    /// Nothing is spoilt, but more replies stand there than the call takes.
    LeftOver,
}

impl Spoil {
    pub const LEAVES_UNFINISHED: [Self; 3] = [Self::OtherKind, Self::OtherLength, Self::RunOut];

    /// Spoils the reply at `place`. The replies behind it stay at times: they must be passed over.
    pub fn apply(self, replies: &mut Vec<Reply>, place: usize, rng: &mut Rng) {
        match self {
            Spoil::LeftOver => return replies.extend(left_over(rng)),
            Spoil::RunOut => return replies.truncate(place),
            Spoil::BusError => replies[place] = Reply::Error(error_code(rng)),
            Spoil::OtherKind => replies[place] = other_kind(&replies[place], rng),
            Spoil::OtherLength => replies[place] = other_length(&replies[place], rng),
        }
        if rng.percent(70) {
            replies.truncate(place + 1);
        }
    }
}

fn left_over(rng: &mut Rng) -> [Reply; 3] {
    let data = Reply::Data(vec![rng.byte()]);
    [data, Reply::Error(rng.byte()), Reply::Done]
}

fn error_code(rng: &mut Rng) -> u8 {
    let any = rng.byte();
    rng.pick(&[0, 1, 255, any])
}

fn other_kind(reply: &Reply, rng: &mut Rng) -> Reply {
    match reply {
        Reply::Data(_) => Reply::Done,
        _ => {
            let length = rng.below(5) as usize;
            Reply::Data(rng.bytes(length))
        }
    }
}

fn other_length(reply: &Reply, rng: &mut Rng) -> Reply {
    let Reply::Data(bytes) = reply else {
        return Reply::Data(vec![]);
    };
    let mut bytes = bytes.clone();
    match rng.below(3) {
        0 => bytes.push(rng.byte()),
        // Nothing is shorter than nothing.
        _ if bytes.is_empty() => bytes.push(0),
        1 => bytes.truncate(bytes.len().saturating_sub(1)),
        _ => bytes.clear(),
    }
    Reply::Data(bytes)
}
