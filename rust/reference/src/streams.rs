//! Streams, marks and primaries: who may write.
//!
//! Nothing about a primary is stored. It follows from the streams and the
//! mark, so it cannot be out of date: [`Streams::primary`] is the definition.

use crate::answer::Answer;
use crate::frame::{ElectionId, Head, STREAMS};
use crate::reason::Reason;

/// Roles are numbered below this; role 0 is the default role.
pub const ROLES: u8 = 8;
/// A role takes at most this many bound streams.
const MOST_BOUND: usize = 8;
/// Bytes of a notification: stream, role, status, flag and id of the mark.
const NOTICE: usize = 20;

/// What a notified stream hears about the primary of its role.
mod status {
    pub const YOU_ARE_PRIMARY: u8 = 0;
    pub const NO_PRIMARY: u8 = 5;
    pub const ANOTHER_IS_PRIMARY: u8 = 6;
}

/// One stream.
#[derive(Clone, Copy, Debug, PartialEq, Eq)]
enum Stream {
    Closed,
    /// Open, and bound to no role yet.
    Open,
    /// Open, and bound to a role with the id of its latest accepted ARBITRATE.
    Bound {
        role: u8,
        id: Option<ElectionId>,
    },
}

/// Which streams an event is told to.
#[derive(Clone, Copy, Debug, PartialEq, Eq)]
pub enum Told {
    Nobody,
    /// This stream alone, which is bound to the role.
    Sender {
        stream: u8,
        role: u8,
    },
    /// Every stream bound to the role.
    Everyone {
        role: u8,
    },
}

/// All streams and marks of an agent.
#[derive(Clone, Debug)]
pub struct Streams {
    streams: [Stream; STREAMS as usize],
    /// The highest set id in any accepted ARBITRATE, by role.
    marks: [Option<ElectionId>; ROLES as usize],
}

impl Default for Streams {
    fn default() -> Self {
        Streams {
            streams: [Stream::Closed; STREAMS as usize],
            marks: [None; ROLES as usize],
        }
    }
}

impl Streams {
    /// Opens a stream, bound to no role.
    pub fn open(&mut self, stream: u8) -> Result<(), Reason> {
        match self.get(stream) {
            Stream::Closed => {
                self.set(stream, Stream::Open);
                Ok(())
            }
            _ => Err(Reason::AlreadyOpen),
        }
    }

    /// Closes a stream.
    pub fn close(&mut self, stream: u8) -> Result<Told, Reason> {
        match self.get(stream) {
            Stream::Closed => Err(Reason::NotOpen),
            _ => Ok(self.shut(stream)),
        }
    }

    /// Binds a stream to its role with its new id, or refuses to. A refusal of
    /// an open stream closes it, and is told to whom the closing is told.
    pub fn arbitrate(
        &mut self,
        device: u64,
        stream: u8,
        head: &Head,
    ) -> (Result<(), Reason>, Told) {
        let admitted = match self.get(stream) {
            Stream::Closed => return (Err(Reason::NotOpen), Told::Nobody),
            Stream::Open => self.admit_unbound(device, stream, head),
            Stream::Bound { role, .. } => self.admit_bound(device, role, stream, head),
        };
        let told = match admitted {
            Ok(()) => self.bind(stream, head.role, head.id),
            Err(_) => self.shut(stream),
        };
        (admitted, told)
    }

    /// The order of refusals on an unbound stream: 5, 6, 8, 9.
    fn admit_unbound(&self, device: u64, stream: u8, head: &Head) -> Result<(), Reason> {
        if head.device != device {
            return Err(Reason::OtherDevice);
        }
        if !is_role(head.role) {
            return Err(Reason::UnknownRole);
        }
        self.id_is_free(stream, head)?;
        self.role_has_place(head.role)
    }

    /// The order of refusals on a bound stream: 7, 8. A role over 7 is another
    /// role, so it is 7 as well.
    fn admit_bound(&self, device: u64, bound: u8, stream: u8, head: &Head) -> Result<(), Reason> {
        if head.device != device || head.role != bound {
            return Err(Reason::OtherBinding);
        }
        self.id_is_free(stream, head)
    }

    /// 8: a set id that another open stream of the role holds. The stream's
    /// own id is no clash, and unset ids never are.
    fn id_is_free(&self, stream: u8, head: &Head) -> Result<(), Reason> {
        let held = self
            .bound_to(head.role)
            .any(|(other, id)| other != stream && id.is_some() && id == head.id);
        if held {
            return Err(Reason::IdHeld);
        }
        Ok(())
    }

    /// 9: eight streams bound already, with or without an id.
    fn role_has_place(&self, role: u8) -> Result<(), Reason> {
        if self.bound_to(role).count() >= MOST_BOUND {
            return Err(Reason::RoleCrowded);
        }
        Ok(())
    }

    /// Binds, raises the mark, and says who is told of it: everyone if the
    /// pair of primary and mark changed, otherwise the sender.
    fn bind(&mut self, stream: u8, role: u8, id: Option<ElectionId>) -> Told {
        let before = (self.primary(role), self.mark(role));
        self.set(stream, Stream::Bound { role, id });
        self.raise_mark(role, id);
        if before == (self.primary(role), self.mark(role)) {
            Told::Sender { stream, role }
        } else {
            Told::Everyone { role }
        }
    }

    /// The mark never falls; an unset id is below every mark.
    fn raise_mark(&mut self, role: u8, id: Option<ElectionId>) {
        let mark = &mut self.marks[usize::from(role)];
        *mark = (*mark).max(id);
    }

    /// Closes an open stream. Those left in the role hear of it only where it
    /// was the primary.
    fn shut(&mut self, stream: u8) -> Told {
        let told = match self.get(stream) {
            Stream::Bound { role, .. } if self.primary(role) == Some(stream) => {
                Told::Everyone { role }
            }
            _ => Told::Nobody,
        };
        self.set(stream, Stream::Closed);
        told
    }

    /// The mark of a role.
    pub fn mark(&self, role: u8) -> Option<ElectionId> {
        self.marks[usize::from(role)]
    }

    /// The open stream bound to the role whose id is set and equals the mark.
    pub fn primary(&self, role: u8) -> Option<u8> {
        let mark = self.mark(role)?;
        self.bound_to(role)
            .find(|&(_, id)| id == Some(mark))
            .map(|(stream, _)| stream)
    }

    /// 10: the id is unset, or the role has no primary, or the id is not the
    /// mark. No stream is named: whoever gives the primary's id is it.
    pub fn speaks_as_primary(&self, role: u8, id: Option<ElectionId>) -> Result<(), Reason> {
        if id.is_none() || self.primary(role).is_none() || id != self.mark(role) {
            return Err(Reason::NotPrimary);
        }
        Ok(())
    }

    /// Writes the notifications, by rising stream.
    pub fn notify(&self, told: Told, answer: &mut Answer<'_>) {
        match told {
            Told::Nobody => {}
            Told::Sender { stream, role } => answer.record(&self.notice(stream, role)),
            Told::Everyone { role } => {
                for (stream, _) in self.bound_to(role) {
                    answer.record(&self.notice(stream, role));
                }
            }
        }
    }

    fn notice(&self, stream: u8, role: u8) -> [u8; NOTICE] {
        let status = match self.primary(role) {
            Some(primary) if primary == stream => status::YOU_ARE_PRIMARY,
            Some(_) => status::ANOTHER_IS_PRIMARY,
            None => status::NO_PRIMARY,
        };
        let mark = self.mark(role);
        let mut notice = [0; NOTICE];
        notice[..4].copy_from_slice(&[stream, role, status, u8::from(mark.is_some())]);
        notice[4..].copy_from_slice(&mark.map_or(0, ElectionId::get).to_be_bytes());
        notice
    }

    /// The streams bound to a role with their ids, by rising stream.
    fn bound_to(&self, role: u8) -> impl Iterator<Item = (u8, Option<ElectionId>)> + '_ {
        (0..STREAMS).filter_map(move |stream| match self.get(stream) {
            Stream::Bound { role: bound, id } if bound == role => Some((stream, id)),
            _ => None,
        })
    }

    fn get(&self, stream: u8) -> Stream {
        self.streams[usize::from(stream)]
    }

    fn set(&mut self, stream: u8, state: Stream) {
        self.streams[usize::from(stream)] = state;
    }
}

/// Is there such a role?
pub fn is_role(role: u8) -> bool {
    role < ROLES
}
