//! Sites, at which values are made, and what states say of them.
#![allow(missing_docs)] // what a field is stands in its variant's line
use crate::ids::{FunctionId, IdentifierId};
use crate::lines::{Line, Spaced, TextError, number_of};
use crate::words::{ValueKind, ValueReason, Word};
use std::fmt;

/// What a value is made at. Sites ascend by their forms in this order, and then by what they name.
#[derive(Clone, Copy, Debug, PartialEq, Eq, PartialOrd, Ord, Hash)]
pub enum Site {
    /// A parameter.
    Parameter(IdentifierId),
    /// A variable that a nested function takes from around it.
    Context(IdentifierId),
    /// A new value.
    Created {
        into: IdentifierId,
        kind: ValueKind,
        reason: ValueReason,
    },
    /// A value that is made from a part of another.
    CreatedFrom {
        from: IdentifierId,
        into: IdentifierId,
    },
    /// A nested function.
    Function(FunctionId),
    /// What is assigned from a frozen value.
    AssignFrozen {
        from: IdentifierId,
        into: IdentifierId,
    },
    /// What is copied by an assignment.
    AssignCopy {
        from: IdentifierId,
        into: IdentifierId,
    },
    /// The value of a place that nothing defined.
    Default(IdentifierId),
}

impl Site {
    fn from_text(text: &str) -> Option<Site> {
        let (form, names) = text.strip_suffix(')')?.split_once('(')?;
        let names: Vec<&str> = names.split(',').collect();
        let id = |at: usize| number_of(names[at]).map(IdentifierId);
        Some(match (form, names.len()) {
            ("Parameter", 1) => Site::Parameter(id(0)?),
            ("Context", 1) => Site::Context(id(0)?),
            ("Created", 3) => Site::Created {
                into: id(0)?,
                kind: Word::from_word(names[1])?,
                reason: Word::from_word(names[2])?,
            },
            ("CreatedFrom", 2) => Site::CreatedFrom {
                from: id(0)?,
                into: id(1)?,
            },
            ("Function", 1) => Site::Function(FunctionId(number_of(names[0])?)),
            ("AssignFrozen", 2) => Site::AssignFrozen {
                from: id(0)?,
                into: id(1)?,
            },
            ("AssignCopy", 2) => Site::AssignCopy {
                from: id(0)?,
                into: id(1)?,
            },
            ("Default", 1) => Site::Default(id(0)?),
            _ => return None,
        })
    }

    fn read(line: &mut Line<'_>) -> Result<Site, TextError> {
        let word = line.word()?;
        Site::from_text(word).ok_or(line.error())
    }
}

impl fmt::Display for Site {
    fn fmt(&self, f: &mut fmt::Formatter<'_>) -> fmt::Result {
        match self {
            Site::Parameter(id) => write!(f, "Parameter({id})"),
            Site::Context(id) => write!(f, "Context({id})"),
            Site::Created { into, kind, reason } => write!(f, "Created({into},{kind},{reason})"),
            Site::CreatedFrom { from, into } => write!(f, "CreatedFrom({from},{into})"),
            Site::Function(function) => write!(f, "Function({function})"),
            Site::AssignFrozen { from, into } => write!(f, "AssignFrozen({from},{into})"),
            Site::AssignCopy { from, into } => write!(f, "AssignCopy({from},{into})"),
            Site::Default(id) => write!(f, "Default({id})"),
        }
    }
}

/// The value that a state has of a site.
#[derive(Clone, Debug, PartialEq, Eq, Hash)]
pub struct SiteValue {
    /// The site.
    pub site: Site,
    /// What may be done with its value.
    pub kind: ValueKind,
    /// Why, in the order of the reasons.
    pub reasons: Vec<ValueReason>,
}

impl SiteValue {
    pub(crate) fn read(mut line: Line<'_>) -> Result<SiteValue, TextError> {
        let (site, kind, words) = (Site::read(&mut line)?, line.named()?, line.word()?);
        let error = line.error();
        line.end()?;
        let reasons = match words {
            "-" => Vec::new(),
            words => words
                .split('+')
                .map(|word| Word::from_word(word).ok_or(error))
                .collect::<Result<_, _>>()?,
        };
        Ok(SiteValue {
            site,
            kind,
            reasons,
        })
    }
}

impl fmt::Display for SiteValue {
    fn fmt(&self, f: &mut fmt::Formatter<'_>) -> fmt::Result {
        write!(f, "{} {} ", self.site, self.kind)?;
        if self.reasons.is_empty() {
            return f.write_str("-");
        }
        for (number, reason) in self.reasons.iter().enumerate() {
            write!(f, "{}{reason}", if number == 0 { "" } else { "+" })?;
        }
        Ok(())
    }
}

/// The sites whose values an identifier may hold.
#[derive(Clone, Debug, PartialEq, Eq, Hash)]
pub struct Variable {
    /// The identifier.
    pub identifier: IdentifierId,
    /// The sites, in ascending order.
    pub sites: Vec<Site>,
}

impl Variable {
    pub(crate) fn read(mut line: Line<'_>) -> Result<Variable, TextError> {
        Ok(Variable {
            identifier: line.identifier()?,
            sites: line.all(Site::read)?,
        })
    }
}

impl fmt::Display for Variable {
    fn fmt(&self, f: &mut fmt::Formatter<'_>) -> fmt::Result {
        write!(f, "{}{}", self.identifier, Spaced(&self.sites))
    }
}
