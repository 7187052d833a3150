//! Effects of instructions, terminals and functions.
#![allow(missing_docs)] // what a field is stands in its variant's line
use crate::ids::{FunctionId, IdentifierId};
use crate::lines::{Line, Spaced, TextError};
use crate::words::{ValueKind, ValueReason};
use std::fmt;

/// An effect. Places are told by their identifiers.
#[derive(Clone, Debug, PartialEq, Eq, PartialOrd, Ord, Hash)]
pub enum Effect {
    /// `into` is a new value.
    Create {
        into: IdentifierId,
        value: ValueKind,
        reason: ValueReason,
    },
    /// `into` is a new value that is made from a part of `from`.
    CreateFrom {
        from: IdentifierId,
        into: IdentifierId,
    },
    /// `from` is put into `into`, and neither is written through the other.
    ImmutableCapture {
        from: IdentifierId,
        into: IdentifierId,
    },
    /// `into` is the same value as `from`.
    Assign {
        from: IdentifierId,
        into: IdentifierId,
    },
    /// `into` is also the same value as `from`.
    Alias {
        from: IdentifierId,
        into: IdentifierId,
    },
    /// `from` is put into `into`, and may be written through it.
    Capture {
        from: IdentifierId,
        into: IdentifierId,
    },
    /// `into` may be the same value as `from`.
    MaybeAlias {
        from: IdentifierId,
        into: IdentifierId,
    },
    /// The value is not written any more.
    Freeze {
        value: IdentifierId,
        reason: ValueReason,
    },
    /// The value is written.
    Mutate {
        value: IdentifierId,
        /// Whether what is written is the property `current`, as of a ref.
        assigns_current_property: bool,
    },
    /// The value is written where that is allowed.
    MutateConditionally { value: IdentifierId },
    /// The value and all that was put into it is written.
    MutateTransitive { value: IdentifierId },
    /// The value and all that was put into it is written where that is allowed.
    MutateTransitiveConditionally { value: IdentifierId },
    /// The value is called while rendering.
    Render { place: IdentifierId },
    /// A frozen value is written, which is an error: the number of its report.
    MutateFrozen { place: IdentifierId, report: u32 },
    /// A value that may be global is written, which is an error: the number of its report.
    MutateGlobal { place: IdentifierId, report: u32 },
    /// An impure function is called, which is an error: the number of its report.
    Impure { place: IdentifierId, report: u32 },
    /// `into` is a new function, which captures these places.
    CreateFunction {
        into: IdentifierId,
        function: FunctionId,
        captures: Vec<IdentifierId>,
    },
    /// `function` is called on `receiver`, and `into` is what it gives. It stands for the effects of the call. Holes have no argument.
    Apply {
        receiver: IdentifierId,
        function: IdentifierId,
        arguments: Vec<IdentifierId>,
        into: IdentifierId,
    },
}

/// What an effect does with two identifiers.
type Flow = fn(IdentifierId, IdentifierId) -> Effect;

/// What an effect does with one.
type Use = fn(IdentifierId) -> Effect;

/// What an effect that is an error does with one and its report.
type Fault = fn(IdentifierId, u32) -> Effect;

/// The effects with a source and a target.
const FLOWS: [(&str, Flow); 6] = [
    ("CreateFrom", |from, into| Effect::CreateFrom { from, into }),
    ("ImmutableCapture", |from, into| Effect::ImmutableCapture {
        from,
        into,
    }),
    ("Assign", |from, into| Effect::Assign { from, into }),
    ("Alias", |from, into| Effect::Alias { from, into }),
    ("Capture", |from, into| Effect::Capture { from, into }),
    ("MaybeAlias", |from, into| Effect::MaybeAlias { from, into }),
];

/// The effects with one place alone.
const USES: [(&str, Use); 4] = [
    ("MutateConditionally", |value| Effect::MutateConditionally {
        value,
    }),
    ("MutateTransitive", |value| Effect::MutateTransitive {
        value,
    }),
    ("MutateTransitiveConditionally", |value| {
        Effect::MutateTransitiveConditionally { value }
    }),
    ("Render", |place| Effect::Render { place }),
];

/// The effects that are errors.
const FAULTS: [(&str, Fault); 3] = [
    ("MutateFrozen", |place, report| Effect::MutateFrozen {
        place,
        report,
    }),
    ("MutateGlobal", |place, report| Effect::MutateGlobal {
        place,
        report,
    }),
    ("Impure", |place, report| Effect::Impure { place, report }),
];

fn named<T: Copy>(table: &[(&str, T)], name: &str) -> Option<T> {
    let (_, found) = table.iter().find(|(entry, _)| *entry == name)?;
    Some(*found)
}

impl Effect {
    /// The effect to the end of the line.
    pub(crate) fn read(mut line: Line<'_>) -> Result<Effect, TextError> {
        let name = line.word()?;
        let effect = if let Some(flow) = named(&FLOWS, name) {
            flow(line.identifier()?, line.identifier()?)
        } else if let Some(usage) = named(&USES, name) {
            usage(line.identifier()?)
        } else if let Some(fault) = named(&FAULTS, name) {
            fault(line.identifier()?, line.number()?)
        } else {
            Effect::read_other(name, &mut line)?
        };
        line.end()?;
        Ok(effect)
    }

    fn read_other(name: &str, line: &mut Line<'_>) -> Result<Effect, TextError> {
        Ok(match name {
            "Create" => Effect::Create {
                into: line.identifier()?,
                value: line.named()?,
                reason: line.named()?,
            },
            "Freeze" => Effect::Freeze {
                value: line.identifier()?,
                reason: line.named()?,
            },
            "Mutate" => Effect::Mutate {
                value: line.identifier()?,
                assigns_current_property: line.rest().is_some()
                    && line.expect("AssignCurrentProperty").map(|()| true)?,
            },
            "CreateFunction" => Effect::CreateFunction {
                into: line.identifier()?,
                function: FunctionId(line.number()?),
                captures: line.identifiers()?,
            },
            "Apply" => {
                let (receiver, function) = (line.identifier()?, line.identifier()?);
                let mut arguments = line.identifiers()?;
                let into = arguments.pop().ok_or(line.error())?;
                Effect::Apply {
                    receiver,
                    function,
                    arguments,
                    into,
                }
            }
            _ => return Err(line.error()),
        })
    }

    /// The report of an effect that is an error: its number among those that the inference made.
    #[must_use]
    pub fn report(&self) -> Option<u32> {
        match self {
            Effect::MutateFrozen { report, .. }
            | Effect::MutateGlobal { report, .. }
            | Effect::Impure { report, .. } => Some(*report),
            _ => None,
        }
    }
}

/// The effect as the program writes it.
impl fmt::Display for Effect {
    fn fmt(&self, f: &mut fmt::Formatter<'_>) -> fmt::Result {
        match self {
            Effect::Create {
                into,
                value,
                reason,
            } => write!(f, "Create {into} {value} {reason}"),
            Effect::CreateFrom { from, into } => write!(f, "CreateFrom {from} {into}"),
            Effect::ImmutableCapture { from, into } => write!(f, "ImmutableCapture {from} {into}"),
            Effect::Assign { from, into } => write!(f, "Assign {from} {into}"),
            Effect::Alias { from, into } => write!(f, "Alias {from} {into}"),
            Effect::Capture { from, into } => write!(f, "Capture {from} {into}"),
            Effect::MaybeAlias { from, into } => write!(f, "MaybeAlias {from} {into}"),
            Effect::Freeze { value, reason } => write!(f, "Freeze {value} {reason}"),
            Effect::Mutate {
                value,
                assigns_current_property: false,
            } => write!(f, "Mutate {value}"),
            Effect::Mutate {
                value,
                assigns_current_property: true,
            } => write!(f, "Mutate {value} AssignCurrentProperty"),
            Effect::MutateConditionally { value } => write!(f, "MutateConditionally {value}"),
            Effect::MutateTransitive { value } => write!(f, "MutateTransitive {value}"),
            Effect::MutateTransitiveConditionally { value } => {
                write!(f, "MutateTransitiveConditionally {value}")
            }
            Effect::Render { place } => write!(f, "Render {place}"),
            Effect::MutateFrozen { place, report } => write!(f, "MutateFrozen {place} {report}"),
            Effect::MutateGlobal { place, report } => write!(f, "MutateGlobal {place} {report}"),
            Effect::Impure { place, report } => write!(f, "Impure {place} {report}"),
            Effect::CreateFunction {
                into,
                function,
                captures,
            } => write!(f, "CreateFunction {into} {function}{}", Spaced(captures)),
            Effect::Apply {
                receiver,
                function,
                arguments,
                into,
            } => write!(f, "Apply {receiver} {function}{} {into}", Spaced(arguments)),
        }
    }
}
