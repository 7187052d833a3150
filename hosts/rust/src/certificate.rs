//! What is inferred of a unit, with what it can be checked by.
use crate::effect::Effect;
use crate::ids::{BlockId, FunctionId, FunctionName, IdentifierId};
use crate::inference::{
    Block, Function, IdentifierRange, Inference, InstructionEffects, read_effects, read_id,
    read_rest, write_effects, write_rest, write_summary,
};
use crate::lines::{Line, Lines, Quoted, Spaced, TextError};
use crate::report::Report;
use crate::site::{SiteValue, Variable};
use std::fmt;
use std::str::FromStr;

/// What a block is entered with, or, in a [`Brief`](crate::Brief), what it is entered with beyond what arrives.
#[derive(Clone, Debug, Default, PartialEq, Eq, Hash)]
pub struct State {
    /// The values of sites, by ascending sites.
    pub values: Vec<SiteValue>,
    /// The sites whose values an identifier may hold, by ascending identifiers.
    pub variables: Vec<Variable>,
}

/// A block that is reached, with what it is entered with.
#[derive(Clone, Debug, PartialEq, Eq, Hash)]
pub struct CertifiedBlock {
    /// The number of the block.
    pub id: BlockId,
    /// What it is entered with.
    pub entry: State,
    /// The effects of its instructions, in its order.
    pub instructions: Vec<InstructionEffects>,
    /// The effects of its terminal.
    pub end: Vec<Effect>,
}

/// What a temporary stands for.
#[derive(Clone, Debug, PartialEq, Eq, PartialOrd, Ord, Hash)]
pub enum TemporaryKey {
    /// A name of the aliasing part of a call.
    Named {
        /// The result of the call.
        into: IdentifierId,
        /// The name.
        name: String,
    },
    /// The further arguments of a function that names none.
    Rest(FunctionId),
}

/// An identifier that the inference added.
#[derive(Clone, Debug, PartialEq, Eq, Hash)]
pub struct Temporary {
    /// The identifier.
    pub identifier: IdentifierId,
    /// What it stands for.
    pub key: TemporaryKey,
}

/// A function of the unit, with what its inference can be checked by.
#[derive(Clone, Debug, PartialEq, Eq, Hash)]
pub struct CertifiedFunction {
    /// Which function it is.
    pub name: FunctionName,
    /// The blocks that the effects pass visited, in its order.
    pub visits: Vec<BlockId>,
    /// Its reached blocks, in stored order.
    pub blocks: Vec<CertifiedBlock>,
    /// The first effects of a key, in the order in which they came.
    pub first: Vec<Effect>,
    /// The identifiers that were added, in the order in which they came.
    pub temporaries: Vec<Temporary>,
    /// What a call of it does.
    pub summary: Vec<Effect>,
}

/// What is inferred of a unit, with what it can be checked by: what [`certify`](crate::certify) answers. Its text is a certificate, which
/// [`check`](crate::check) reads.
#[derive(Clone, Debug, PartialEq, Eq, Hash)]
pub struct Certificate {
    /// The functions, each after those that it creates, and the root last.
    pub functions: Vec<CertifiedFunction>,
    /// The ranges, by ascending identifiers. One that nothing sets is left out.
    pub ranges: Vec<IdentifierRange>,
    /// The reports.
    pub reports: Vec<Report>,
}

/// What was inferred, without what it can be checked by.
impl From<Certificate> for Inference {
    fn from(certificate: Certificate) -> Inference {
        let function = |function: CertifiedFunction| Function {
            name: function.name,
            blocks: function.blocks.into_iter().map(Block::from).collect(),
            summary: function.summary,
        };
        Inference {
            functions: certificate.functions.into_iter().map(function).collect(),
            ranges: certificate.ranges,
            reports: certificate.reports,
        }
    }
}

/// The block without what it is entered with.
impl From<CertifiedBlock> for Block {
    fn from(block: CertifiedBlock) -> Block {
        Block {
            id: block.id,
            instructions: block.instructions,
            end: block.end,
        }
    }
}

impl State {
    pub(crate) fn read(lines: &mut Lines<'_>) -> Result<State, TextError> {
        Ok(State {
            values: lines.all("value", SiteValue::read)?,
            variables: lines.all("variable", Variable::read)?,
        })
    }
}

impl CertifiedBlock {
    fn read(line: Line<'_>, lines: &mut Lines<'_>) -> Result<CertifiedBlock, TextError> {
        let id = read_id(line)?;
        let entry = State::read(lines)?;
        let (instructions, end) = read_effects(lines)?;
        Ok(CertifiedBlock {
            id,
            entry,
            instructions,
            end,
        })
    }
}

impl TemporaryKey {
    /// The key to the end of the line. A name may have spaces, so it isn't read by words.
    fn read(line: Line<'_>) -> Result<TemporaryKey, TextError> {
        let rest = line.rest().ok_or(line.error())?;
        TemporaryKey::from_text(rest).ok_or(line.error())
    }

    fn from_text(text: &str) -> Option<TemporaryKey> {
        let (form, parts) = text.strip_suffix(')')?.split_once('(')?;
        match form {
            "Named" => {
                let (into, name) = parts.split_once(',')?;
                let (name, behind) = crate::lines::unquoted(name)?;
                behind.is_empty().then_some(TemporaryKey::Named {
                    into: IdentifierId(crate::lines::number_of(into)?),
                    name,
                })
            }
            "Rest" => Some(TemporaryKey::Rest(FunctionId(crate::lines::number_of(
                parts,
            )?))),
            _ => None,
        }
    }
}

impl Temporary {
    pub(crate) fn read(mut line: Line<'_>) -> Result<Temporary, TextError> {
        let identifier = line.identifier()?;
        let key = TemporaryKey::read(line)?;
        Ok(Temporary { identifier, key })
    }
}

impl CertifiedFunction {
    fn read(mut line: Line<'_>, lines: &mut Lines<'_>) -> Result<CertifiedFunction, TextError> {
        let name = line.function()?;
        line.end()?;
        let visits = lines.need("visits")?.all(Line::block)?;
        let mut blocks = Vec::new();
        while let Some(line) = lines.take("block") {
            blocks.push(CertifiedBlock::read(line, lines)?);
        }
        Ok(CertifiedFunction {
            name,
            visits,
            blocks,
            first: lines.all("first", Effect::read)?,
            temporaries: lines.all("temporary", Temporary::read)?,
            summary: lines.all("summary", Effect::read)?,
        })
    }
}

/// Reads the text that `jirrambeo certify` writes.
impl FromStr for Certificate {
    type Err = TextError;

    fn from_str(text: &str) -> Result<Certificate, TextError> {
        let mut lines = Lines::new(text);
        let mut functions = Vec::new();
        while let Some(line) = lines.take("function") {
            functions.push(CertifiedFunction::read(line, &mut lines)?);
        }
        let (ranges, reports) = read_rest(lines)?;
        Ok(Certificate {
            functions,
            ranges,
            reports,
        })
    }
}

impl fmt::Display for TemporaryKey {
    fn fmt(&self, f: &mut fmt::Formatter<'_>) -> fmt::Result {
        match self {
            TemporaryKey::Named { into, name } => write!(f, "Named({into},{})", Quoted(name)),
            TemporaryKey::Rest(function) => write!(f, "Rest({function})"),
        }
    }
}

impl fmt::Display for Temporary {
    fn fmt(&self, f: &mut fmt::Formatter<'_>) -> fmt::Result {
        write!(f, "{} {}", self.identifier, self.key)
    }
}

impl fmt::Display for State {
    fn fmt(&self, f: &mut fmt::Formatter<'_>) -> fmt::Result {
        self.values
            .iter()
            .try_for_each(|value| writeln!(f, "value {value}"))?;
        self.variables
            .iter()
            .try_for_each(|variable| writeln!(f, "variable {variable}"))
    }
}

impl fmt::Display for CertifiedFunction {
    fn fmt(&self, f: &mut fmt::Formatter<'_>) -> fmt::Result {
        writeln!(f, "function {}", self.name)?;
        writeln!(f, "visits{}", Spaced(&self.visits))?;
        for block in &self.blocks {
            write!(f, "block {}\n{}", block.id, block.entry)?;
            write_effects(f, &block.instructions, &block.end)?;
        }
        self.first
            .iter()
            .try_for_each(|effect| writeln!(f, "first {effect}"))?;
        for temporary in &self.temporaries {
            writeln!(f, "temporary {temporary}")?;
        }
        write_summary(f, &self.summary)
    }
}

/// The text that `jirrambeo certify` writes, which `check` reads.
impl fmt::Display for Certificate {
    fn fmt(&self, f: &mut fmt::Formatter<'_>) -> fmt::Result {
        self.functions
            .iter()
            .try_for_each(|function| function.fmt(f))?;
        write_rest(f, &self.ranges, &self.reports)
    }
}
