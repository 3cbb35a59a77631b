//! What is wrong with a set of tables.

use crate::lists::{Code, Rule, Stage};
use crate::sys;
use alloc::vec::Vec;
use core::fmt::{Display, Formatter, Result};

/// A fault: a rule of the ACPI Specification that the tables break.
///
/// The meaning of the three numbers depends on the code: see "Numbers" of each [`Code`]. A number that a code does
/// not use is 0.
///
/// It is displayed like the program's line, without the `no` before it:
///
/// ```
/// use acpiset::{Code, Fault};
///
/// let fault = Fault::new(Code::Overlap, 0x30, 0x58, 0);
/// assert_eq!(fault.to_string(), "10 Overlap 0x30 0x58 0x0");
/// ```
#[derive(Clone, Copy, Debug, PartialEq, Eq, Hash)]
#[non_exhaustive]
pub struct Fault {
    /// What is wrong.
    pub code: Code,
    /// Where: an address in stages 1, 2 and 5, a slot in stage 3, otherwise an offset in a table.
    pub at: u64,
    /// A second number.
    pub other: u64,
    /// A third number.
    pub point: u64,
}

impl Fault {
    /// The fault with these numbers, such as one that another program reported, for [`confirm`](crate::confirm).
    #[must_use]
    pub const fn new(code: Code, at: u64, other: u64, point: u64) -> Fault {
        Fault {
            code,
            at,
            other,
            point,
        }
    }

    /// The stage of the code; none for a code that this version of the crate does not know.
    #[must_use]
    pub const fn stage(&self) -> Option<Stage> {
        self.code.stage()
    }

    pub(crate) fn raw(&self) -> sys::Finding {
        sys::Finding {
            number: self.code.number(),
            at: self.at,
            other: self.other,
            point: self.point,
        }
    }
}

impl From<&sys::Answer> for Fault {
    fn from(answer: &sys::Answer) -> Fault {
        let code = Code::from_number(answer.code);
        Fault::new(code, answer.at, answer.other, answer.point)
    }
}

impl From<&sys::Finding> for Fault {
    fn from(found: &sys::Finding) -> Fault {
        let code = Code::from_number(found.number);
        Fault::new(code, found.at, found.other, found.point)
    }
}

impl Display for Fault {
    fn fmt(&self, f: &mut Formatter<'_>) -> Result {
        match self.stage() {
            Some(stage) => write!(f, "{}", stage.number())?,
            None => write!(f, "?")?,
        }
        let Fault {
            code,
            at,
            other,
            point,
        } = self;
        write!(f, " {code} {at:#x} {other:#x} {point:#x}")
    }
}

/// How serious a finding of advice is, from what needs the least attention to what needs the most.
#[derive(Clone, Copy, Debug, PartialEq, Eq, PartialOrd, Ord, Hash)]
#[non_exhaustive]
pub enum Severity {
    /// Nothing is known to be wrong, but no rule looks at what is there.
    NotLookedAt,
    /// Unusual, but there may be such hardware, or a later version of the standard may define the value.
    LookAtIt,
    /// Almost always a mistake.
    LikelyWrong,
}

/// A finding of advice: what is probably wrong but breaks none of the rules that a check tests. A machine may have a
/// reason for it.
///
/// It is displayed like the program's line, without the `advice` before it: `SlitDiffers 0x2d 0x30 0x0`.
#[derive(Clone, Copy, Debug, PartialEq, Eq, Hash)]
#[non_exhaustive]
pub struct Advice {
    /// The rule that is broken.
    pub rule: Rule,
    /// Where: a slot or an offset in a table. See "Numbers" of the rule.
    pub at: u64,
    /// A second number.
    pub other: u64,
    /// A third number.
    pub point: u64,
}

impl From<&sys::Finding> for Advice {
    fn from(found: &sys::Finding) -> Advice {
        Advice {
            rule: Rule::from_number(found.number),
            at: found.at,
            other: found.other,
            point: found.point,
        }
    }
}

impl Display for Advice {
    fn fmt(&self, f: &mut Formatter<'_>) -> Result {
        let Advice {
            rule,
            at,
            other,
            point,
        } = self;
        write!(f, "{rule} {at:#x} {other:#x} {point:#x}")
    }
}

/// All that is wrong with a set of tables.
///
/// It is displayed like the lines of `acpiset lint`: `yes`, or a line `no` for each fault; then a line `advice` for
/// each finding of advice. There is no newline at the end.
#[derive(Clone, Debug, Default, PartialEq, Eq, Hash)]
#[non_exhaustive]
pub struct Findings {
    /// The first fault of each code that has one, by number.
    pub faults: Vec<Fault>,
    /// The first finding of each rule of advice that is broken, by number.
    pub advice: Vec<Advice>,
}

impl Display for Findings {
    fn fmt(&self, f: &mut Formatter<'_>) -> Result {
        let mut between = "";
        if self.faults.is_empty() {
            write!(f, "yes")?;
            between = "\n";
        }
        for fault in &self.faults {
            write!(f, "{between}no {fault}")?;
            between = "\n";
        }
        for advice in &self.advice {
            write!(f, "{between}advice {advice}")?;
        }
        Ok(())
    }
}
