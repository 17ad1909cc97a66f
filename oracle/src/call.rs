//! A call: a direct access, one of the seventeen kinds, a register access, or a burst.

use std::fmt::{self, Display, Formatter};

use crate::access::{Access, Answer};
use crate::bursts::Burst;
use crate::decimal::decimal;
use crate::registers::RegisterAccess;
use crate::world::World;

#[derive(Clone, Debug, PartialEq, Eq)]
pub enum Call {
    Direct(Access),
    Register(RegisterAccess),
    BurstWrite(Burst),
    /// With the list that is lent.
    BurstRead(Burst, Vec<u32>),
}

impl From<Access> for Call {
    fn from(access: Access) -> Call {
        Call::Direct(access)
    }
}

impl From<RegisterAccess> for Call {
    fn from(access: RegisterAccess) -> Call {
        Call::Register(access)
    }
}

/// The numbers of a call: the six of a direct access; side, offset, direction and dword of a register
/// access, the offset as the sheet writes it. A burst has its word before side, mode and start; a
/// read then the places of its list; then come the phases.
impl Display for Call {
    fn fmt(&self, f: &mut Formatter) -> fmt::Result {
        match self {
            Call::Direct(access) => f.write_str(&decimal(access.numbers())),
            Call::Register(RegisterAccess {
                side,
                offset,
                direction,
                dword,
            }) => write!(f, "{side} {offset:#06x} {direction} {dword}"),
            Call::BurstWrite(burst) => {
                let Burst {
                    side, mode, start, ..
                } = burst;
                write!(f, "write {side} {mode} {start}")?;
                write_phases(f, burst)
            }
            Call::BurstRead(burst, list) => {
                let Burst {
                    side, mode, start, ..
                } = burst;
                write!(f, "read {side} {mode} {start} {}", list.len())?;
                write_phases(f, burst)
            }
        }
    }
}

fn write_phases(f: &mut Formatter, burst: &Burst) -> fmt::Result {
    burst
        .phases
        .iter()
        .try_for_each(|phase| write!(f, " {phase}"))
}

/// What a call gives: its answer, and of a burst read the list as it is left.
#[derive(Clone, Debug, PartialEq, Eq)]
pub struct Given {
    pub answer: Answer,
    pub list: Option<Vec<u32>>,
}

impl From<Answer> for Given {
    fn from(answer: Answer) -> Given {
        Given { answer, list: None }
    }
}

/// Number, V and X; of a burst read then `leaving` and its places.
impl Display for Given {
    fn fmt(&self, f: &mut Formatter) -> fmt::Result {
        f.write_str(&decimal(self.answer.numbers()))?;
        if let Some(list) = &self.list {
            f.write_str(" leaving")?;
            list.iter().try_for_each(|place| write!(f, " {place}"))?;
        }
        Ok(())
    }
}

impl World {
    pub fn call(&mut self, call: &Call) -> Given {
        match call {
            Call::Direct(access) => self.access(*access).into(),
            Call::Register(access) => self.register_access(*access).into(),
            Call::BurstWrite(burst) => self.burst_write(burst).into(),
            Call::BurstRead(burst, lent) => {
                let mut list = lent.clone();
                Given {
                    answer: self.burst_read(burst, &mut list),
                    list: Some(list),
                }
            }
        }
    }
}
