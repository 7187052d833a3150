//! What is inferred of a unit, with what a verifier of each line needs of its loops.
use crate::certificate::{State, Temporary};
use crate::effect::Effect;
use crate::ids::{BlockId, FunctionName};
use crate::inference::{
    Block, Function, IdentifierRange, Inference, InstructionEffects, read_effects, read_id,
    read_rest, write_effects, write_rest, write_summary,
};
use crate::lines::{Line, Lines, TextError};
use crate::report::Report;
use std::fmt;
use std::str::FromStr;

/// A block that is reached, with what it is entered with beyond what arrives over edges to later blocks.
#[derive(Clone, Debug, PartialEq, Eq, Hash)]
pub struct BriefBlock {
    /// The number of the block.
    pub id: BlockId,
    /// What it is entered with beyond what arrives.
    pub beyond: State,
    /// The effects of its instructions, in its order.
    pub instructions: Vec<InstructionEffects>,
    /// The effects of its terminal.
    pub end: Vec<Effect>,
}

/// A function of the unit, with what its loops need.
#[derive(Clone, Debug, PartialEq, Eq, Hash)]
pub struct BriefFunction {
    /// Which function it is.
    pub name: FunctionName,
    /// Its reached blocks, in stored order.
    pub blocks: Vec<BriefBlock>,
    /// The identifiers that were added, where the function has edges to earlier blocks.
    pub temporaries: Vec<Temporary>,
    /// What a call of it does.
    pub summary: Vec<Effect>,
}

/// What is inferred of a unit, with what its loops need: what [`brief`](crate::brief) answers, and whose text [`verify`](crate::verify) reads.
#[derive(Clone, Debug, PartialEq, Eq, Hash)]
pub struct Brief {
    /// The functions, each after those that it creates, and the root last.
    pub functions: Vec<BriefFunction>,
    /// The ranges, by ascending identifiers. One that nothing sets is left out.
    pub ranges: Vec<IdentifierRange>,
    /// The reports.
    pub reports: Vec<Report>,
}

/// What was inferred, without what loops need.
impl From<Brief> for Inference {
    fn from(brief: Brief) -> Inference {
        let function = |function: BriefFunction| Function {
            name: function.name,
            blocks: function.blocks.into_iter().map(Block::from).collect(),
            summary: function.summary,
        };
        Inference {
            functions: brief.functions.into_iter().map(function).collect(),
            ranges: brief.ranges,
            reports: brief.reports,
        }
    }
}

/// The block without what it is entered with.
impl From<BriefBlock> for Block {
    fn from(block: BriefBlock) -> Block {
        Block {
            id: block.id,
            instructions: block.instructions,
            end: block.end,
        }
    }
}

impl BriefBlock {
    fn read(line: Line<'_>, lines: &mut Lines<'_>) -> Result<BriefBlock, TextError> {
        let id = read_id(line)?;
        let beyond = State::read(lines)?;
        let (instructions, end) = read_effects(lines)?;
        Ok(BriefBlock {
            id,
            beyond,
            instructions,
            end,
        })
    }
}

impl BriefFunction {
    fn read(mut line: Line<'_>, lines: &mut Lines<'_>) -> Result<BriefFunction, TextError> {
        let name = line.function()?;
        line.end()?;
        let mut blocks = Vec::new();
        while let Some(line) = lines.take("block") {
            blocks.push(BriefBlock::read(line, lines)?);
        }
        Ok(BriefFunction {
            name,
            blocks,
            temporaries: lines.all("temporary", Temporary::read)?,
            summary: lines.all("summary", Effect::read)?,
        })
    }
}

/// Reads the text that `jirrambeo brief` writes.
impl FromStr for Brief {
    type Err = TextError;

    fn from_str(text: &str) -> Result<Brief, TextError> {
        let mut lines = Lines::new(text);
        let mut functions = Vec::new();
        while let Some(line) = lines.take("function") {
            functions.push(BriefFunction::read(line, &mut lines)?);
        }
        let (ranges, reports) = read_rest(lines)?;
        Ok(Brief {
            functions,
            ranges,
            reports,
        })
    }
}

impl fmt::Display for BriefFunction {
    fn fmt(&self, f: &mut fmt::Formatter<'_>) -> fmt::Result {
        writeln!(f, "function {}", self.name)?;
        for block in &self.blocks {
            write!(f, "block {}\n{}", block.id, block.beyond)?;
            write_effects(f, &block.instructions, &block.end)?;
        }
        self.temporaries
            .iter()
            .try_for_each(|temporary| writeln!(f, "temporary {temporary}"))?;
        write_summary(f, &self.summary)
    }
}

/// The text that `jirrambeo brief` writes, which `verify` reads.
impl fmt::Display for Brief {
    fn fmt(&self, f: &mut fmt::Formatter<'_>) -> fmt::Result {
        self.functions
            .iter()
            .try_for_each(|function| function.fmt(f))?;
        write_rest(f, &self.ranges, &self.reports)
    }
}
