//! What is inferred of a unit.
use crate::effect::Effect;
use crate::ids::{BlockId, FunctionName, IdentifierId, InstructionId, Order};
use crate::lines::{Line, Lines, TextError};
use crate::report::Report;
use std::fmt;
use std::str::FromStr;

/// What an instruction does: its effects, in order. One without effects isn't told.
#[derive(Clone, Debug, PartialEq, Eq, Hash)]
pub struct InstructionEffects {
    /// The instruction.
    pub instruction: InstructionId,
    /// Its effects.
    pub effects: Vec<Effect>,
}

/// A block that is reached: what its instructions and its terminal do.
#[derive(Clone, Debug, PartialEq, Eq, Hash)]
pub struct Block {
    /// The number of the block.
    pub id: BlockId,
    /// The effects of its instructions, in its order.
    pub instructions: Vec<InstructionEffects>,
    /// The effects of its terminal.
    pub end: Vec<Effect>,
}

/// A function of the unit, as it was inferred.
#[derive(Clone, Debug, PartialEq, Eq, Hash)]
pub struct Function {
    /// Which function it is.
    pub name: FunctionName,
    /// Its reached blocks, in stored order.
    pub blocks: Vec<Block>,
    /// What a call of it does.
    pub summary: Vec<Effect>,
}

/// From where to where an identifier's value may be written.
#[derive(Clone, Copy, Debug, PartialEq, Eq, PartialOrd, Ord, Hash)]
pub struct MutableRange {
    /// The first order.
    pub start: Order,
    /// The order past the last.
    pub end: Order,
}

impl MutableRange {
    pub(crate) fn read(line: &mut Line<'_>) -> Result<MutableRange, TextError> {
        Ok(MutableRange {
            start: line.order()?,
            end: line.order()?,
        })
    }

    /// Whether the value may be written at this order.
    #[must_use]
    pub fn contains(self, order: Order) -> bool {
        self.start <= order && order < self.end
    }
}

/// An identifier with its range.
#[derive(Clone, Copy, Debug, PartialEq, Eq, PartialOrd, Ord, Hash)]
pub struct IdentifierRange {
    /// The identifier.
    pub identifier: IdentifierId,
    /// Its range.
    pub range: MutableRange,
}

impl IdentifierRange {
    pub(crate) fn read(mut line: Line<'_>) -> Result<IdentifierRange, TextError> {
        let identifier = line.identifier()?;
        let range = MutableRange::read(&mut line)?;
        line.end()?;
        Ok(IdentifierRange { identifier, range })
    }
}

/// What is inferred of a unit: what [`infer`](crate::infer) answers.
#[derive(Clone, Debug, PartialEq, Eq, Hash)]
pub struct Inference {
    /// The functions, each after those that it creates, and the root last.
    pub functions: Vec<Function>,
    /// The ranges, by ascending identifiers. One that nothing sets is left out.
    pub ranges: Vec<IdentifierRange>,
    /// The reports.
    pub reports: Vec<Report>,
}

impl Inference {
    /// A function of the unit.
    #[must_use]
    pub fn function(&self, name: FunctionName) -> Option<&Function> {
        self.functions.iter().find(|function| function.name == name)
    }

    /// The unit's own function.
    ///
    /// # Panics
    ///
    /// Where `functions` doesn't end with the root, as each that was inferred does.
    #[must_use]
    pub fn root(&self) -> &Function {
        self.functions
            .last()
            .expect("an inference ends with the root")
    }

    /// From where to where an identifier's value may be written, where something sets it.
    #[must_use]
    pub fn range(&self, identifier: IdentifierId) -> Option<MutableRange> {
        let at = self
            .ranges
            .binary_search_by_key(&identifier, |entry| entry.identifier)
            .ok()?;
        Some(self.ranges[at].range)
    }
}

impl Function {
    /// A block of the function, where it is reached.
    #[must_use]
    pub fn block(&self, id: BlockId) -> Option<&Block> {
        self.blocks.iter().find(|block| block.id == id)
    }

    fn read(mut line: Line<'_>, lines: &mut Lines<'_>) -> Result<Function, TextError> {
        let name = line.function()?;
        line.end()?;
        let mut blocks = Vec::new();
        while let Some(line) = lines.take("block") {
            let (id, (instructions, end)) = (read_id(line)?, read_effects(lines)?);
            blocks.push(Block {
                id,
                instructions,
                end,
            });
        }
        let summary = lines.all("summary", Effect::read)?;
        Ok(Function {
            name,
            blocks,
            summary,
        })
    }
}

impl Block {
    /// The effects of an instruction of the block.
    #[must_use]
    pub fn effects(&self, instruction: InstructionId) -> &[Effect] {
        let found = self
            .instructions
            .iter()
            .find(|entry| entry.instruction == instruction);
        found.map_or(&[], |entry| entry.effects.as_slice())
    }
}

/// The number of a block, to the end of the line.
pub(crate) fn read_id(mut line: Line<'_>) -> Result<BlockId, TextError> {
    let id = line.block()?;
    line.end()?;
    Ok(id)
}

/// The effects of a block's instructions and of its terminal.
pub(crate) fn read_effects(
    lines: &mut Lines<'_>,
) -> Result<(Vec<InstructionEffects>, Vec<Effect>), TextError> {
    let mut instructions: Vec<InstructionEffects> = Vec::new();
    while let Some((number, line)) = lines.take_numbered() {
        let (instruction, effect) = (InstructionId(number), Effect::read(line)?);
        match instructions.last_mut() {
            Some(last) if last.instruction == instruction => last.effects.push(effect),
            _ => instructions.push(InstructionEffects {
                instruction,
                effects: vec![effect],
            }),
        }
    }
    Ok((instructions, lines.all("end", Effect::read)?))
}

/// The ranges and the reports, to the end of the text.
pub(crate) fn read_rest(
    mut lines: Lines<'_>,
) -> Result<(Vec<IdentifierRange>, Vec<Report>), TextError> {
    let ranges = lines.all("range", IdentifierRange::read)?;
    let mut head = lines.need("reports")?;
    let count: usize = head.number()?;
    head.end()?;
    let reports = lines.all("report", Report::read)?;
    if reports.len() != count {
        return Err(head.error());
    }
    lines.end()?;
    Ok((ranges, reports))
}

/// Reads the text that `jirrambeo infer` writes.
impl FromStr for Inference {
    type Err = TextError;

    fn from_str(text: &str) -> Result<Inference, TextError> {
        let mut lines = Lines::new(text);
        let mut functions = Vec::new();
        while let Some(line) = lines.take("function") {
            functions.push(Function::read(line, &mut lines)?);
        }
        let (ranges, reports) = read_rest(lines)?;
        Ok(Inference {
            functions,
            ranges,
            reports,
        })
    }
}

/// The lines of a block's effects.
pub(crate) fn write_effects(
    f: &mut fmt::Formatter<'_>,
    instructions: &[InstructionEffects],
    end: &[Effect],
) -> fmt::Result {
    for entry in instructions {
        entry
            .effects
            .iter()
            .try_for_each(|effect| writeln!(f, "{} {effect}", entry.instruction))?;
    }
    end.iter()
        .try_for_each(|effect| writeln!(f, "end {effect}"))
}

/// The lines of a summary.
pub(crate) fn write_summary(f: &mut fmt::Formatter<'_>, summary: &[Effect]) -> fmt::Result {
    summary
        .iter()
        .try_for_each(|effect| writeln!(f, "summary {effect}"))
}

/// The lines of the ranges and the reports.
pub(crate) fn write_rest(
    f: &mut fmt::Formatter<'_>,
    ranges: &[IdentifierRange],
    reports: &[Report],
) -> fmt::Result {
    for IdentifierRange { identifier, range } in ranges {
        writeln!(f, "range {identifier} {} {}", range.start, range.end)?;
    }
    writeln!(f, "reports {}", reports.len())?;
    reports
        .iter()
        .try_for_each(|report| writeln!(f, "report {report}"))
}

impl fmt::Display for Function {
    fn fmt(&self, f: &mut fmt::Formatter<'_>) -> fmt::Result {
        writeln!(f, "function {}", self.name)?;
        for block in &self.blocks {
            writeln!(f, "block {}", block.id)?;
            write_effects(f, &block.instructions, &block.end)?;
        }
        write_summary(f, &self.summary)
    }
}

/// The text that `jirrambeo infer` writes.
impl fmt::Display for Inference {
    fn fmt(&self, f: &mut fmt::Formatter<'_>) -> fmt::Result {
        self.functions
            .iter()
            .try_for_each(|function| function.fmt(f))?;
        write_rest(f, &self.ranges, &self.reports)
    }
}
