//! Reports, and the places that they come from.
use crate::ids::{BlockId, FunctionName, InstructionId};
use crate::lines::{Line, Lines, Quoted, QuotedOrNone, TextError};
use crate::words::Category;
use std::fmt;
use std::str::FromStr;

/// A part of the source: offsets as the unit has them.
#[derive(Clone, Copy, Debug, PartialEq, Eq, PartialOrd, Ord, Hash)]
pub struct Span {
    /// Where it begins.
    pub start: u32,
    /// Where it ends, which is past its last.
    pub end: u32,
}

/// What a report points at.
#[derive(Clone, Debug, PartialEq, Eq, Hash)]
pub struct Label {
    /// The part of the source.
    pub span: Span,
    /// What is said of it.
    pub text: Option<String>,
}

/// A report on a unit: what the code does that it must not do.
#[derive(Clone, Debug, PartialEq, Eq, Hash)]
pub struct Report {
    /// What it is about.
    pub category: Category,
    /// What is wrong.
    pub message: String,
    /// What to do.
    pub help: Option<String>,
    /// What it points at. A unit without spans has none.
    pub labels: Vec<Label>,
}

impl Label {
    fn read(line: &mut Line<'_>) -> Result<Label, TextError> {
        let word = line.word()?;
        let (start, end) = word.split_once("..").ok_or(line.error())?;
        let number = |digits| crate::lines::number_of(digits).ok_or(line.error());
        let span = Span {
            start: number(start)?,
            end: number(end)?,
        };
        Ok(Label {
            span,
            text: line.optional_text()?,
        })
    }
}

impl Report {
    /// The report to the end of the line.
    pub(crate) fn read(mut line: Line<'_>) -> Result<Report, TextError> {
        Ok(Report {
            category: line.named()?,
            message: line.text()?,
            help: line.optional_text()?,
            labels: line.all(Label::read)?,
        })
    }
}

impl fmt::Display for Label {
    fn fmt(&self, f: &mut fmt::Formatter<'_>) -> fmt::Result {
        write!(
            f,
            "{}..{} {}",
            self.span.start,
            self.span.end,
            QuotedOrNone(self.text.as_deref())
        )
    }
}

/// The report as the program writes it behind the word `report`.
impl fmt::Display for Report {
    fn fmt(&self, f: &mut fmt::Formatter<'_>) -> fmt::Result {
        write!(
            f,
            "{} {} {}",
            self.category,
            Quoted(&self.message),
            QuotedOrNone(self.help.as_deref())
        )?;
        self.labels
            .iter()
            .try_for_each(|label| write!(f, " {label}"))
    }
}

/// Where in a block a report comes from.
#[derive(Clone, Copy, Debug, PartialEq, Eq, PartialOrd, Ord, Hash)]
pub enum Place {
    /// An instruction of the block.
    Instruction(InstructionId),
    /// The end of the block.
    End,
}

impl fmt::Display for Place {
    fn fmt(&self, f: &mut fmt::Formatter<'_>) -> fmt::Result {
        match self {
            Place::Instruction(instruction) => instruction.fmt(f),
            Place::End => f.write_str("end"),
        }
    }
}

/// A report with the place that it comes from.
#[derive(Clone, Debug, PartialEq, Eq, Hash)]
pub struct Lint {
    /// The function.
    pub function: FunctionName,
    /// The block.
    pub block: BlockId,
    /// Where in the block.
    pub place: Place,
    /// The report.
    pub report: Report,
}

impl Lint {
    fn read(mut line: Line<'_>) -> Result<Lint, TextError> {
        let (function, block) = (line.function()?, line.block()?);
        let mut ahead = line;
        let place = if ahead.word()? == "end" {
            line = ahead;
            Place::End
        } else {
            Place::Instruction(line.instruction()?)
        };
        Ok(Lint {
            function,
            block,
            place,
            report: Report::read(line)?,
        })
    }
}

impl fmt::Display for Lint {
    fn fmt(&self, f: &mut fmt::Formatter<'_>) -> fmt::Result {
        write!(
            f,
            "{} {} {} {}",
            self.function, self.block, self.place, self.report
        )
    }
}

/// The reports on a unit, in the order in which an inference has them: what [`lint`](crate::lint) answers.
#[derive(Clone, Debug, Default, PartialEq, Eq, Hash)]
pub struct Lints {
    /// The reports.
    pub lints: Vec<Lint>,
}

/// Reads the text that `jirrambeo lint` writes.
impl FromStr for Lints {
    type Err = TextError;

    fn from_str(text: &str) -> Result<Lints, TextError> {
        let mut lines = Lines::new(text);
        let found = lines.all("lint", Lint::read)?;
        let mut last = lines.need("lints")?;
        if last.number::<usize>()? != found.len() {
            return Err(last.error());
        }
        last.end()?;
        lines.end()?;
        Ok(Lints { lints: found })
    }
}

/// The text that `jirrambeo lint` writes.
impl fmt::Display for Lints {
    fn fmt(&self, f: &mut fmt::Formatter<'_>) -> fmt::Result {
        self.lints
            .iter()
            .try_for_each(|lint| writeln!(f, "lint {lint}"))?;
        writeln!(f, "lints {}", self.lints.len())
    }
}
