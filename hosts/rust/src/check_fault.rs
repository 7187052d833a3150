//! Why a certificate isn't accepted.
#![allow(missing_docs)] // what a field is stands in its variant's line
use crate::ids::{BlockId, FunctionName};
use crate::lines::{Line, TextError};
use crate::words::Counter;
use std::fmt;

/// Why a certificate isn't accepted for a unit: the first fault. docs/FORMAT.md, Certificates, has each by its number, with an example.
#[derive(Clone, Copy, Debug, PartialEq, Eq, Hash)]
pub enum CheckFault {
    /// 1: the function at this position of the certificate, from 0, is missing, is another, or is one too many.
    Functions { position: u64 },
    /// 2: the function's blocks aren't its reached blocks in stored order.
    Blocks { function: FunctionName },
    /// 3: what the block is said to be entered with names what isn't there, or a site of a variable has no value.
    State {
        function: FunctionName,
        block: BlockId,
    },
    /// 4: the key of a temporary stands twice or names what isn't there, or the identifiers aren't the next new numbers in order.
    Temporaries { function: FunctionName },
    /// 5: the state that the function begins with isn't below what its entry is said to be entered with.
    Initial { function: FunctionName },
    /// 6: the step of the block is refused, or reads what has no value there.
    Step {
        function: FunctionName,
        block: BlockId,
    },
    /// 7: the step of the block made a temporary that the certificate hasn't.
    MissingTemporary {
        function: FunctionName,
        block: BlockId,
    },
    /// 8: the effects that the step of the block records aren't those that are told.
    Effects {
        function: FunctionName,
        block: BlockId,
    },
    /// 9: what the block is left with isn't below what the successor is said to be entered with.
    NotBelow {
        function: FunctionName,
        block: BlockId,
        successor: BlockId,
    },
    /// 10: all edges of the function go to later blocks, and what the block is said to be entered with isn't the join of what arrives there.
    NotJoin {
        function: FunctionName,
        block: BlockId,
    },
    /// 11: the summary isn't the one that is told.
    Summary { function: FunctionName },
    /// 12: no number is left for a new identifier, a report, or a position of the alias graph.
    TooMany { which: Counter },
}

impl CheckFault {
    /// The fault to the end of the line, behind the word `Rejected`.
    pub(crate) fn read(mut line: Line<'_>) -> Result<CheckFault, TextError> {
        let fault = match line.number::<u32>()? {
            1 => CheckFault::Functions {
                position: line.number()?,
            },
            12 => CheckFault::TooMany {
                which: line.named()?,
            },
            number => CheckFault::read_in(number, line.function()?, &mut line)?,
        };
        line.end()?;
        Ok(fault)
    }

    /// A fault in a function.
    fn read_in(
        number: u32,
        function: FunctionName,
        line: &mut Line<'_>,
    ) -> Result<CheckFault, TextError> {
        match number {
            2 => return Ok(CheckFault::Blocks { function }),
            4 => return Ok(CheckFault::Temporaries { function }),
            5 => return Ok(CheckFault::Initial { function }),
            11 => return Ok(CheckFault::Summary { function }),
            _ => {}
        }
        let block = line.block()?;
        Ok(match number {
            3 => CheckFault::State { function, block },
            6 => CheckFault::Step { function, block },
            7 => CheckFault::MissingTemporary { function, block },
            8 => CheckFault::Effects { function, block },
            9 => CheckFault::NotBelow {
                function,
                block,
                successor: line.block()?,
            },
            10 => CheckFault::NotJoin { function, block },
            _ => return Err(line.error()),
        })
    }

    /// The number of the fault.
    #[must_use]
    pub fn number(&self) -> u32 {
        match self {
            CheckFault::Functions { .. } => 1,
            CheckFault::Blocks { .. } => 2,
            CheckFault::State { .. } => 3,
            CheckFault::Temporaries { .. } => 4,
            CheckFault::Initial { .. } => 5,
            CheckFault::Step { .. } => 6,
            CheckFault::MissingTemporary { .. } => 7,
            CheckFault::Effects { .. } => 8,
            CheckFault::NotBelow { .. } => 9,
            CheckFault::NotJoin { .. } => 10,
            CheckFault::Summary { .. } => 11,
            CheckFault::TooMany { .. } => 12,
        }
    }
}

/// The number of the fault, and where it is, as the program writes them.
impl fmt::Display for CheckFault {
    fn fmt(&self, f: &mut fmt::Formatter<'_>) -> fmt::Result {
        self.number().fmt(f)?;
        match self {
            CheckFault::Functions { position } => write!(f, " {position}"),
            CheckFault::TooMany { which } => write!(f, " {which}"),
            CheckFault::Blocks { function }
            | CheckFault::Temporaries { function }
            | CheckFault::Initial { function }
            | CheckFault::Summary { function } => write!(f, " {function}"),
            CheckFault::State { function, block }
            | CheckFault::Step { function, block }
            | CheckFault::MissingTemporary { function, block }
            | CheckFault::Effects { function, block }
            | CheckFault::NotJoin { function, block } => write!(f, " {function} {block}"),
            CheckFault::NotBelow {
                function,
                block,
                successor,
            } => write!(f, " {function} {block} {successor}"),
        }
    }
}
