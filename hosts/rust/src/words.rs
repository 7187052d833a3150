//! Enums whose variants are words of the text.
use std::fmt;

/// A type whose values are words of the text.
pub(crate) trait Word: Copy + 'static {
    /// Each word, with what it says.
    const ALL: &'static [(&'static str, Self)];

    fn from_word(word: &str) -> Option<Self> {
        let (_, found) = Self::ALL.iter().find(|(name, _)| *name == word)?;
        Some(*found)
    }
}

/// Makes enums whose variants are the words of their names.
macro_rules! words {
    ($($(#[$about:meta])* $name:ident { $($(#[$says:meta])* $variant:ident,)* })*) => {
        $(
            $(#[$about])*
            #[derive(Clone, Copy, Debug, PartialEq, Eq, PartialOrd, Ord, Hash)]
            pub enum $name {
                $($(#[$says])* $variant,)*
            }

            impl Word for $name {
                const ALL: &'static [(&'static str, $name)] = &[$((stringify!($variant), $name::$variant),)*];
            }

            impl fmt::Display for $name {
                fn fmt(&self, f: &mut fmt::Formatter<'_>) -> fmt::Result {
                    f.write_str(match self {
                        $($name::$variant => stringify!($variant),)*
                    })
                }
            }
        )*
    };
}

words! {
    /// What may be done with a value.
    ValueKind {
        /// A value without parts, which nothing can write.
        Primitive,
        /// A value from outside the component, as an import.
        Global,
        /// A value that isn't to be written any more.
        Frozen,
        /// A value that may be written.
        Mutable,
        /// A value that a nested function takes from around it.
        Context,
        /// A value that is frozen on some path.
        MaybeFrozen,
    }

    /// Why a value has its kind.
    ValueReason {
        /// The signature of the call that gave it says so.
        KnownReturnSignature,
        /// It is what `useState` gives.
        State,
        /// It is what `useReducer` gives.
        ReducerState,
        /// It is what `useContext` gives.
        Context,
        /// It is used in an effect.
        Effect,
        /// A hook captured it.
        HookCaptured,
        /// A hook gave it.
        HookReturn,
        /// It is global.
        Global,
        /// JSX, or what a function returns, captured it.
        JsxCaptured,
        /// It was stored into a variable.
        StoreLocal,
        /// It is an argument of a component or a hook.
        ReactiveFunctionArgument,
        /// Another reason.
        Other,
    }

    /// What a report is about.
    Category {
        /// A unit that no compiler should make.
        Invariant,
        /// Code that isn't dealt with.
        Todo,
        /// A write of what isn't to be written.
        Immutability,
        /// A write of a global.
        Globals,
        /// A call of an impure function.
        Purity,
        /// A call of a function that can't be memoized.
        IncompatibleLibrary,
    }

    /// The rule of the format that a JSON value breaks.
    FormatRule {
        /// A key that has to be there is absent.
        Missing,
        /// An object has a key that isn't known.
        Unknown,
        /// A value has another JSON type, or an array another length.
        Kind,
        /// A number isn't whole, or is beyond 64 bits.
        Float,
        /// A whole number is out of range.
        Range,
        /// A text names no variant.
        Name,
        /// What may stand once stands twice.
        Twice,
    }

    /// A table of a unit that numbers refer to.
    Table {
        /// Of identifiers.
        Identifiers,
        /// Of types.
        Types,
        /// Of nested functions.
        Functions,
        /// Of a function's instructions.
        Instructions,
        /// Of declarations, which is that of identifiers.
        Declarations,
    }

    /// What has no number left.
    Counter {
        /// Identifiers.
        Identifiers,
        /// Reports.
        Diagnostics,
        /// Positions of the alias graph.
        GraphPositions,
    }
}
