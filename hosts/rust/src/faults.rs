//! Why a unit or a certificate isn't taken.
#![allow(missing_docs)] // what a field is stands in its variant's line
use crate::ids::{BlockId, FunctionName, IdentifierId, InstructionId, Order};
use crate::lines::{Line, TextError};
use crate::words::{Counter, Table};
use std::fmt;

/// What has too much of something.
#[derive(Clone, Copy, Debug, PartialEq, Eq, Hash)]
pub enum Holder {
    /// A call in the function.
    Function(FunctionName),
    /// An aliasing part of a signature.
    Signature,
}

/// The rule that a unit breaks first. docs/FORMAT.md, The rules of a well-formed unit, has each by its number.
#[derive(Clone, Copy, Debug, PartialEq, Eq, Hash)]
pub enum UnitFault {
    /// 1: a number isn't below the length of its table.
    IdOutOfRange { table: Table, number: u32 },
    /// 2: the entry is no block.
    EntryMissing { function: FunctionName },
    /// 3: a successor of the block, or the handler of its `Try`, is no block.
    SuccessorMissing {
        function: FunctionName,
        block: BlockId,
        named: BlockId,
    },
    /// 4: a nested function isn't named by exactly one instruction, or can't be reached from the root.
    NestingNoTree { function: FunctionName },
    /// 5: a nested function is on a level above 64.
    NestingTooDeep { function: FunctionName },
    /// 6: the type of this number has more than 32 levels.
    TypeTooDeep { number: u32 },
    /// 7: no block lists the instruction.
    InstructionMissing {
        function: FunctionName,
        instruction: InstructionId,
    },
    /// 8: an instruction is listed twice.
    InstructionTwice {
        function: FunctionName,
        instruction: InstructionId,
    },
    /// 9: two `Try` terminals name the handler.
    TwoTrys {
        function: FunctionName,
        handler: BlockId,
    },
    /// 10: an operand of a phi of the block is for a block that has no edge to it.
    PhiNoPredecessor {
        function: FunctionName,
        block: BlockId,
        named: BlockId,
    },
    /// 11: an order is 0 or 4,294,967,295.
    OrderOutOfRange {
        function: FunctionName,
        order: Order,
    },
    /// 12: something is inferred already, which no input can say.
    SomethingInferred,
    /// 13: an identifier is there twice among the parameters, the context places and `returns`.
    NotDistinct {
        function: FunctionName,
        identifier: IdentifierId,
    },
    /// 14: an identifier of the nested function is also outside, and isn't in its context.
    IdentifierInTwo {
        identifier: IdentifierId,
        function: FunctionName,
    },
    /// 15: a call has more than 1,024 arguments, or a signature more than 64 temporaries.
    TooMuch { holder: Holder, number: u64 },
    /// 17: the context values of a function aren't those of its context places.
    ContextValues { function: FunctionName },
}

impl UnitFault {
    /// The fault to the end of the line, behind the word `Unfit`.
    pub(crate) fn read(mut line: Line<'_>) -> Result<UnitFault, TextError> {
        let fault = match line.number::<u32>()? {
            1 => UnitFault::IdOutOfRange {
                table: line.named()?,
                number: line.number()?,
            },
            6 => UnitFault::TypeTooDeep {
                number: line.number()?,
            },
            12 => UnitFault::SomethingInferred,
            14 => UnitFault::IdentifierInTwo {
                identifier: line.identifier()?,
                function: line.function()?,
            },
            15 => UnitFault::TooMuch {
                holder: Holder::read(&mut line)?,
                number: line.number()?,
            },
            rule => UnitFault::read_in(rule, line.function()?, &mut line)?,
        };
        line.end()?;
        Ok(fault)
    }

    /// A fault in a function.
    fn read_in(
        rule: u32,
        function: FunctionName,
        line: &mut Line<'_>,
    ) -> Result<UnitFault, TextError> {
        Ok(match rule {
            2 => UnitFault::EntryMissing { function },
            3 => UnitFault::SuccessorMissing {
                function,
                block: line.block()?,
                named: line.block()?,
            },
            4 => UnitFault::NestingNoTree { function },
            5 => UnitFault::NestingTooDeep { function },
            7 => UnitFault::InstructionMissing {
                function,
                instruction: line.instruction()?,
            },
            8 => UnitFault::InstructionTwice {
                function,
                instruction: line.instruction()?,
            },
            9 => UnitFault::TwoTrys {
                function,
                handler: line.block()?,
            },
            10 => UnitFault::PhiNoPredecessor {
                function,
                block: line.block()?,
                named: line.block()?,
            },
            11 => UnitFault::OrderOutOfRange {
                function,
                order: line.order()?,
            },
            13 => UnitFault::NotDistinct {
                function,
                identifier: line.identifier()?,
            },
            17 => UnitFault::ContextValues { function },
            _ => return Err(line.error()),
        })
    }

    /// The number of the rule.
    #[must_use]
    pub fn rule(&self) -> u32 {
        match self {
            UnitFault::IdOutOfRange { .. } => 1,
            UnitFault::EntryMissing { .. } => 2,
            UnitFault::SuccessorMissing { .. } => 3,
            UnitFault::NestingNoTree { .. } => 4,
            UnitFault::NestingTooDeep { .. } => 5,
            UnitFault::TypeTooDeep { .. } => 6,
            UnitFault::InstructionMissing { .. } => 7,
            UnitFault::InstructionTwice { .. } => 8,
            UnitFault::TwoTrys { .. } => 9,
            UnitFault::PhiNoPredecessor { .. } => 10,
            UnitFault::OrderOutOfRange { .. } => 11,
            UnitFault::SomethingInferred => 12,
            UnitFault::NotDistinct { .. } => 13,
            UnitFault::IdentifierInTwo { .. } => 14,
            UnitFault::TooMuch { .. } => 15,
            UnitFault::ContextValues { .. } => 17,
        }
    }
}

impl Holder {
    fn read(line: &mut Line<'_>) -> Result<Holder, TextError> {
        let mut ahead = *line;
        if ahead.word()? == "signature" {
            *line = ahead;
            return Ok(Holder::Signature);
        }
        line.function().map(Holder::Function)
    }
}

impl fmt::Display for Holder {
    fn fmt(&self, f: &mut fmt::Formatter<'_>) -> fmt::Result {
        match self {
            Holder::Function(function) => function.fmt(f),
            Holder::Signature => f.write_str("signature"),
        }
    }
}

/// The number of the rule, and where it is broken, as the program writes them.
impl fmt::Display for UnitFault {
    fn fmt(&self, f: &mut fmt::Formatter<'_>) -> fmt::Result {
        self.rule().fmt(f)?;
        match self {
            UnitFault::IdOutOfRange { table, number } => write!(f, " {table} {number}"),
            UnitFault::TypeTooDeep { number } => write!(f, " {number}"),
            UnitFault::SomethingInferred => Ok(()),
            UnitFault::EntryMissing { function }
            | UnitFault::NestingNoTree { function }
            | UnitFault::NestingTooDeep { function }
            | UnitFault::ContextValues { function } => write!(f, " {function}"),
            UnitFault::SuccessorMissing {
                function,
                block,
                named,
            }
            | UnitFault::PhiNoPredecessor {
                function,
                block,
                named,
            } => {
                write!(f, " {function} {block} {named}")
            }
            UnitFault::InstructionMissing {
                function,
                instruction,
            }
            | UnitFault::InstructionTwice {
                function,
                instruction,
            } => {
                write!(f, " {function} {instruction}")
            }
            UnitFault::TwoTrys { function, handler } => write!(f, " {function} {handler}"),
            UnitFault::OrderOutOfRange { function, order } => write!(f, " {function} {order}"),
            UnitFault::NotDistinct {
                function,
                identifier,
            } => write!(f, " {function} {identifier}"),
            UnitFault::IdentifierInTwo {
                identifier,
                function,
            } => write!(f, " {identifier} {function}"),
            UnitFault::TooMuch { holder, number } => write!(f, " {holder} {number}"),
        }
    }
}

/// Why the inference refuses a well-formed unit.
#[derive(Clone, Copy, Debug, PartialEq, Eq, Hash)]
pub enum InferError {
    /// The effects of an instruction make an identifier twice.
    Reinitialized {
        function: FunctionName,
        instruction: InstructionId,
        identifier: IdentifierId,
    },
    /// An alias goes into what its instruction hasn't made.
    AliasBeforeCreate {
        function: FunctionName,
        instruction: InstructionId,
        identifier: IdentifierId,
    },
    /// A function is called that can't be memoized, and validations are asked for.
    IncompatibleLibrary {
        function: FunctionName,
        instruction: InstructionId,
    },
    /// A call would freeze an argument that is spread.
    SpreadArgument {
        function: FunctionName,
        instruction: InstructionId,
    },
    /// No number is left.
    TooMany { which: Counter },
    /// A block that is visited reads an identifier that has no value there.
    Uninitialized {
        function: FunctionName,
        block: BlockId,
        identifier: IdentifierId,
    },
    /// A block was still dirty after 100 rounds, of so many visits.
    NotSettled { function: FunctionName, visits: u64 },
    /// A recorded effect is still a call. No unit ends with it.
    UnreplacedApply { instruction: InstructionId },
    /// A validation comes to an operand without an effect. No unit ends with it.
    EffectsNotInferred { identifier: IdentifierId },
}

impl InferError {
    /// The error to the end of the line, whose first word is its name.
    pub(crate) fn read(mut line: Line<'_>) -> Result<InferError, TextError> {
        let name = line.word()?;
        let error = match name {
            "TooMany" => InferError::TooMany {
                which: line.named()?,
            },
            "UnreplacedApply" => InferError::UnreplacedApply {
                instruction: line.instruction()?,
            },
            "EffectsNotInferred" => InferError::EffectsNotInferred {
                identifier: line.identifier()?,
            },
            _ => InferError::read_in(name, line.function()?, &mut line)?,
        };
        line.end()?;
        Ok(error)
    }

    /// An error in a function.
    fn read_in(
        name: &str,
        function: FunctionName,
        line: &mut Line<'_>,
    ) -> Result<InferError, TextError> {
        Ok(match name {
            "Reinitialized" => InferError::Reinitialized {
                function,
                instruction: line.instruction()?,
                identifier: line.identifier()?,
            },
            "AliasBeforeCreate" => InferError::AliasBeforeCreate {
                function,
                instruction: line.instruction()?,
                identifier: line.identifier()?,
            },
            "IncompatibleLibrary" => InferError::IncompatibleLibrary {
                function,
                instruction: line.instruction()?,
            },
            "SpreadArgument" => InferError::SpreadArgument {
                function,
                instruction: line.instruction()?,
            },
            "Uninitialized" => InferError::Uninitialized {
                function,
                block: line.block()?,
                identifier: line.identifier()?,
            },
            "NotSettled" => InferError::NotSettled {
                function,
                visits: line.number()?,
            },
            _ => return Err(line.error()),
        })
    }
}

/// The error as the program writes it.
impl fmt::Display for InferError {
    fn fmt(&self, f: &mut fmt::Formatter<'_>) -> fmt::Result {
        match self {
            InferError::Reinitialized {
                function,
                instruction,
                identifier,
            } => write!(f, "Reinitialized {function} {instruction} {identifier}"),
            InferError::AliasBeforeCreate {
                function,
                instruction,
                identifier,
            } => write!(f, "AliasBeforeCreate {function} {instruction} {identifier}"),
            InferError::IncompatibleLibrary {
                function,
                instruction,
            } => write!(f, "IncompatibleLibrary {function} {instruction}"),
            InferError::SpreadArgument {
                function,
                instruction,
            } => write!(f, "SpreadArgument {function} {instruction}"),
            InferError::TooMany { which } => write!(f, "TooMany {which}"),
            InferError::Uninitialized {
                function,
                block,
                identifier,
            } => write!(f, "Uninitialized {function} {block} {identifier}"),
            InferError::NotSettled { function, visits } => {
                write!(f, "NotSettled {function} {visits}")
            }
            InferError::UnreplacedApply { instruction } => {
                write!(f, "UnreplacedApply {instruction}")
            }
            InferError::EffectsNotInferred { identifier } => {
                write!(f, "EffectsNotInferred {identifier}")
            }
        }
    }
}

/// Why it isn't known whether a unit is plain.
#[derive(Clone, Copy, Debug, PartialEq, Eq, Hash)]
pub enum PlainFault {
    /// A block was still dirty after 100 rounds.
    NotSettled { function: FunctionName },
    /// No number is left for a temporary or a report.
    TooMany { which: Counter },
}

impl PlainFault {
    pub(crate) fn read(mut line: Line<'_>) -> Result<PlainFault, TextError> {
        let fault = match line.word()? {
            "NotSettled" => PlainFault::NotSettled {
                function: line.function()?,
            },
            "TooMany" => PlainFault::TooMany {
                which: line.named()?,
            },
            _ => return Err(line.error()),
        };
        line.end()?;
        Ok(fault)
    }
}

impl fmt::Display for PlainFault {
    fn fmt(&self, f: &mut fmt::Formatter<'_>) -> fmt::Result {
        match self {
            PlainFault::NotSettled { function } => write!(f, "NotSettled {function}"),
            PlainFault::TooMany { which } => write!(f, "TooMany {which}"),
        }
    }
}
