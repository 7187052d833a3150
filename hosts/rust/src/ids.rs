//! The numbers that a unit's tables go by.
use std::fmt;

macro_rules! numbers {
    ($($(#[$about:meta])* $name:ident;)*) => {
        $(
            $(#[$about])*
            #[derive(Clone, Copy, Debug, PartialEq, Eq, PartialOrd, Ord, Hash)]
            pub struct $name(pub u32);

            impl fmt::Display for $name {
                fn fmt(&self, f: &mut fmt::Formatter<'_>) -> fmt::Result {
                    self.0.fmt(f)
                }
            }
        )*
    };
}

numbers! {
    /// The number of a nested function in the unit's `functions`.
    FunctionId;
    /// The number of a block, which is its `id`.
    BlockId;
    /// The number of an instruction in its function's list, from 0.
    InstructionId;
    /// The number of an identifier. Those that the inference adds come after the unit's own.
    IdentifierId;
    /// An order of evaluation: the `id` of an instruction or of a terminal, or one more.
    Order;
}

/// A function of a unit.
#[derive(Clone, Copy, Debug, PartialEq, Eq, PartialOrd, Ord, Hash)]
pub enum FunctionName {
    /// The unit's own function.
    Root,
    /// One of its nested functions.
    Nested(FunctionId),
}

impl fmt::Display for FunctionName {
    fn fmt(&self, f: &mut fmt::Formatter<'_>) -> fmt::Result {
        match self {
            FunctionName::Root => f.write_str("root"),
            FunctionName::Nested(function) => function.fmt(f),
        }
    }
}

impl From<FunctionId> for FunctionName {
    fn from(function: FunctionId) -> FunctionName {
        FunctionName::Nested(function)
    }
}
