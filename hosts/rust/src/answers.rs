//! What the shorter commands answer: why a range ends, whether a unit is plain, whether a certificate is accepted, and counts.
use crate::ids::{FunctionName, IdentifierId, InstructionId};
use crate::inference::MutableRange;
use crate::lines::{Line, Lines, TextError};
use std::fmt;
use std::str::FromStr;

/// A step of the path on which a mutation reaches an identifier.
#[derive(Clone, Copy, Debug, PartialEq, Eq, PartialOrd, Ord, Hash)]
pub struct PathStep {
    /// The identifier to which the mutation comes.
    pub identifier: IdentifierId,
    /// Whether it comes with all that the value holds.
    pub transitive: bool,
    /// Whether it comes to what holds the value or was made of it, and not to what the value was made of or is.
    pub forwards: bool,
    /// Whether the write is certain, and not only where it is allowed.
    pub definite: bool,
}

/// Why a range ends where it does: the first of these that is so.
#[derive(Clone, Debug, PartialEq, Eq, Hash)]
pub enum Cause {
    /// It has no end.
    Unset,
    /// It ends past this instruction, which assigns the identifier or stores it into a context variable.
    Defined {
        /// The instruction.
        instruction: InstructionId,
    },
    /// It ends past this instruction, which records a mutation that reaches the identifier.
    Mutated {
        /// The instruction.
        instruction: InstructionId,
        /// A shortest path, from what is mutated to the identifier.
        path: Vec<PathStep>,
    },
    /// None of these. No range of a unit that is inferred ends so.
    NoCause,
}

/// An identifier's range, and why it ends where it does: what [`explain`](crate::explain) answers.
#[derive(Clone, Debug, PartialEq, Eq, Hash)]
pub struct Explanation {
    /// The range, 0 to 0 where nothing sets one.
    pub range: MutableRange,
    /// Why it ends there.
    pub cause: Cause,
}

/// Why the ranges of all identifiers of a function end where they do: what [`explain_function`](crate::explain_function)
/// answers.
#[derive(Clone, Debug, Default, PartialEq, Eq, Hash)]
pub struct FunctionExplanation {
    /// Each identifier that stands in the function, in ascending order, as [`explain`](crate::explain) explains it. Context
    /// places of a nested function aren't among them.
    pub identifiers: Vec<(IdentifierId, Explanation)>,
}

const REACHES: [(&str, bool); 2] = [("local", false), ("transitive", true)];
const DIRECTIONS: [(&str, bool); 2] = [("Backwards", false), ("Forwards", true)];
const CERTAINTIES: [(&str, bool); 2] = [("Conditional", false), ("Definite", true)];

/// The word of an answer.
fn word_for(words: &[(&'static str, bool); 2], says: bool) -> &'static str {
    words[usize::from(says)].0
}

impl PathStep {
    fn read(mut line: Line<'_>) -> Result<PathStep, TextError> {
        let step = PathStep {
            identifier: line.identifier()?,
            transitive: line.one_of(&REACHES)?,
            forwards: line.one_of(&DIRECTIONS)?,
            definite: line.one_of(&CERTAINTIES)?,
        };
        line.end()?;
        Ok(step)
    }
}

impl Cause {
    fn read(lines: &mut Lines<'_>) -> Result<Cause, TextError> {
        let mut line = lines.next()?;
        let cause = match line.word()? {
            "unset" => Cause::Unset,
            "nocause" => Cause::NoCause,
            "defined" => Cause::Defined {
                instruction: line.instruction()?,
            },
            "mutated" => Cause::Mutated {
                instruction: line.instruction()?,
                path: lines.all("step", PathStep::read)?,
            },
            _ => return Err(line.error()),
        };
        line.end()?;
        Ok(cause)
    }
}

impl Explanation {
    fn read(lines: &mut Lines<'_>) -> Result<Explanation, TextError> {
        let mut line = lines.need("range")?;
        let range = MutableRange::read(&mut line)?;
        line.end()?;
        let cause = Cause::read(lines)?;
        Ok(Explanation { range, cause })
    }
}

/// Reads the text that `jirrambeo explain` writes of an identifier.
impl FromStr for Explanation {
    type Err = TextError;

    fn from_str(text: &str) -> Result<Explanation, TextError> {
        let mut lines = Lines::new(text);
        let explanation = Explanation::read(&mut lines)?;
        lines.end()?;
        Ok(explanation)
    }
}

/// Reads the text that `jirrambeo explain` writes of a function.
impl FromStr for FunctionExplanation {
    type Err = TextError;

    fn from_str(text: &str) -> Result<FunctionExplanation, TextError> {
        let (mut lines, mut identifiers) = (Lines::new(text), Vec::new());
        while let Some(mut line) = lines.take("identifier") {
            let identifier = line.identifier()?;
            line.end()?;
            identifiers.push((identifier, Explanation::read(&mut lines)?));
        }
        lines.end()?;
        Ok(FunctionExplanation { identifiers })
    }
}

impl fmt::Display for PathStep {
    fn fmt(&self, f: &mut fmt::Formatter<'_>) -> fmt::Result {
        let (reach, direction) = (
            word_for(&REACHES, self.transitive),
            word_for(&DIRECTIONS, self.forwards),
        );
        write!(
            f,
            "{} {reach} {direction} {}",
            self.identifier,
            word_for(&CERTAINTIES, self.definite)
        )
    }
}

/// The text that `jirrambeo explain` writes of a function.
impl fmt::Display for FunctionExplanation {
    fn fmt(&self, f: &mut fmt::Formatter<'_>) -> fmt::Result {
        self.identifiers
            .iter()
            .try_for_each(|(identifier, why)| write!(f, "identifier {identifier}\n{why}"))
    }
}

/// The text that `jirrambeo explain` writes of an identifier.
impl fmt::Display for Explanation {
    fn fmt(&self, f: &mut fmt::Formatter<'_>) -> fmt::Result {
        writeln!(f, "range {} {}", self.range.start, self.range.end)?;
        match &self.cause {
            Cause::Unset => writeln!(f, "unset"),
            Cause::NoCause => writeln!(f, "nocause"),
            Cause::Defined { instruction } => writeln!(f, "defined {instruction}"),
            Cause::Mutated { instruction, path } => {
                writeln!(f, "mutated {instruction}")?;
                path.iter().try_for_each(|step| writeln!(f, "step {step}"))
            }
        }
    }
}

/// Whether a unit is plain, so that nothing in it leads an inference to refuse it where its functions settle: what [`plain`](crate::plain) answers.
#[derive(Clone, Copy, Debug, PartialEq, Eq, Hash)]
pub enum Plainness {
    /// It is.
    Plain,
    /// It isn't: the first instruction that breaks a condition.
    NotPlain {
        /// The function.
        function: FunctionName,
        /// The instruction.
        instruction: InstructionId,
        /// The first condition that it breaks, from 1 to 5: docs/MODEL.md, Plain units, has them.
        condition: u32,
    },
}

/// Reads the line that `jirrambeo plain` writes.
impl FromStr for Plainness {
    type Err = TextError;

    fn from_str(text: &str) -> Result<Plainness, TextError> {
        let mut lines = Lines::new(text);
        let mut line = lines.next()?;
        let plainness = match line.word()? {
            "plain" => Plainness::Plain,
            "not" => {
                line.expect("plain")?;
                Plainness::NotPlain {
                    function: line.function()?,
                    instruction: line.instruction()?,
                    condition: line.number()?,
                }
            }
            _ => return Err(line.error()),
        };
        line.end()?;
        lines.end()?;
        Ok(plainness)
    }
}

/// The line that `jirrambeo plain` writes.
impl fmt::Display for Plainness {
    fn fmt(&self, f: &mut fmt::Formatter<'_>) -> fmt::Result {
        match self {
            Plainness::Plain => writeln!(f, "plain"),
            Plainness::NotPlain {
                function,
                instruction,
                condition,
            } => writeln!(f, "not plain {function} {instruction} {condition}"),
        }
    }
}

/// A certificate that is accepted: what [`check`](crate::check) and [`verify`](crate::verify) answer.
#[derive(Clone, Copy, Debug, PartialEq, Eq, Hash)]
pub struct Accepted {
    /// How many functions it has.
    pub functions: u64,
}

/// Reads the line that `jirrambeo check` and `verify` write.
impl FromStr for Accepted {
    type Err = TextError;

    fn from_str(text: &str) -> Result<Accepted, TextError> {
        let mut lines = Lines::new(text);
        let functions = read_count(&mut lines, "accepted")?;
        lines.end()?;
        Ok(Accepted { functions })
    }
}

/// The line that `jirrambeo check` and `verify` write.
impl fmt::Display for Accepted {
    fn fmt(&self, f: &mut fmt::Formatter<'_>) -> fmt::Result {
        writeln!(f, "accepted {}", self.functions)
    }
}

/// How much is inferred of a unit: what [`made`](crate::made) answers.
#[derive(Clone, Copy, Debug, PartialEq, Eq, Hash)]
pub struct Counts {
    /// The blocks of the root.
    pub blocks: u64,
    /// The instructions of the root.
    pub instructions: u64,
    /// The effects that were recorded, of all functions.
    pub effects: u64,
    /// The visits of blocks, of all functions.
    pub visits: u64,
    /// The identifiers that have a range.
    pub ranges: u64,
    /// The reports.
    pub reports: u64,
}

/// The number behind a word, alone on a line.
fn read_count(lines: &mut Lines<'_>, word: &str) -> Result<u64, TextError> {
    let mut line = lines.need(word)?;
    let count = line.number()?;
    line.end()?;
    Ok(count)
}

/// Reads the text that `jirrambeo made` writes.
impl FromStr for Counts {
    type Err = TextError;

    fn from_str(text: &str) -> Result<Counts, TextError> {
        let mut lines = Lines::new(text);
        let counts = Counts {
            blocks: read_count(&mut lines, "blocks")?,
            instructions: read_count(&mut lines, "instructions")?,
            effects: read_count(&mut lines, "effects")?,
            visits: read_count(&mut lines, "visits")?,
            ranges: read_count(&mut lines, "ranges")?,
            reports: read_count(&mut lines, "reports")?,
        };
        lines.end()?;
        Ok(counts)
    }
}

/// The text that `jirrambeo made` writes.
impl fmt::Display for Counts {
    fn fmt(&self, f: &mut fmt::Formatter<'_>) -> fmt::Result {
        writeln!(
            f,
            "blocks {}\ninstructions {}\neffects {}",
            self.blocks, self.instructions, self.effects
        )?;
        writeln!(
            f,
            "visits {}\nranges {}\nreports {}",
            self.visits, self.ranges, self.reports
        )
    }
}
