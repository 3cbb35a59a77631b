//! The settings of a call.

use crate::lists::Stage;
use crate::sys;
use core::mem::size_of;

/// The number of inputs (interrupt pins) of one I/O APIC.
///
/// No ACPI table has it: software reads it from the I/O APIC. It decides which interrupt numbers the I/O APIC serves.
#[repr(C)]
#[derive(Clone, Copy, Debug, PartialEq, Eq, Hash)]
pub struct Inputs {
    /// The I/O APIC's address, as in the MADT.
    pub address: u32,
    /// The number of its inputs, 1 to 256.
    pub count: u32,
}

/// Which memory ranges of the SRAT may not overlap.
#[derive(Clone, Copy, Debug, Default, PartialEq, Eq, Hash)]
#[non_exhaustive]
pub enum HotPlug {
    /// No two enabled ranges.
    #[default]
    Counted,
    /// No two enabled hot-pluggable ranges, and no two enabled ones that are not hot-pluggable. This allows one large
    /// hot-pluggable range over existing memory, as some firmware reports it.
    Apart,
}

/// Which processors of the MADT may not be in two proximity domains.
#[derive(Clone, Copy, Debug, Default, PartialEq, Eq, Hash)]
#[non_exhaustive]
pub enum Processors {
    /// Those with the flag Enabled.
    #[default]
    Enabled,
    /// Those with the flag Enabled or Online Capable.
    Usable,
}

/// The settings of a call: the RSDP's address, the numbers of inputs of the I/O APICs, and choices.
///
/// ```
/// use acpiset::{HotPlug, Inputs, Settings};
///
/// // The I/O APIC at 0xfec00000 has 48 inputs, all others have 24.
/// let inputs = [Inputs { address: 0xfec0_0000, count: 48 }];
/// let settings = Settings::new(0xe0000).inputs(&inputs).hotplug(HotPlug::Apart);
/// # let _ = settings;
/// ```
#[derive(Clone, Copy, Debug, PartialEq, Eq, Hash)]
#[must_use]
pub struct Settings<'a> {
    rsdp: u64,
    default_inputs: u32,
    inputs: &'a [Inputs],
    hotplug: HotPlug,
    processors: Processors,
    through: Stage,
}

impl<'a> Settings<'a> {
    /// The usual settings, with the RSDP at this address: 24 inputs for each I/O APIC, [`HotPlug::Counted`],
    /// [`Processors::Enabled`], and all stages.
    pub const fn new(rsdp: u64) -> Settings<'a> {
        Settings {
            rsdp,
            default_inputs: 24,
            inputs: &[],
            hotplug: HotPlug::Counted,
            processors: Processors::Enabled,
            through: Stage::Leaves,
        }
    }

    /// The number of inputs, 1 to 256, of each I/O APIC that [`Settings::inputs`] does not name.
    pub const fn default_inputs(mut self, count: u32) -> Settings<'a> {
        self.default_inputs = count;
        self
    }

    /// The numbers of inputs of these I/O APICs. If an address is repeated, the first number counts.
    pub const fn inputs(mut self, inputs: &'a [Inputs]) -> Settings<'a> {
        self.inputs = inputs;
        self
    }

    /// Which memory ranges of the SRAT may not overlap.
    pub const fn hotplug(mut self, hotplug: HotPlug) -> Settings<'a> {
        self.hotplug = hotplug;
        self
    }

    /// Which processors of the MADT may not be in two proximity domains.
    pub const fn processors(mut self, processors: Processors) -> Settings<'a> {
        self.processors = processors;
        self
    }

    /// The last stage of a check. `confirm` and `lint` ignore it. Set it if a later version with more stages should
    /// not change a verdict.
    pub const fn through(mut self, last: Stage) -> Settings<'a> {
        self.through = last;
        self
    }

    /// The numbers of inputs, and the other settings as C has them.
    pub(crate) fn raw(&self) -> (&'a [Inputs], sys::Settings) {
        let settings = sys::Settings {
            size: size_of::<sys::Settings>(),
            rsdp: self.rsdp,
            default_inputs: self.default_inputs,
            hotplug: match self.hotplug {
                HotPlug::Counted => 0,
                HotPlug::Apart => 1,
            },
            processors: match self.processors {
                Processors::Enabled => 0,
                Processors::Usable => 1,
            },
            through: self.through.number(),
        };
        (self.inputs, settings)
    }
}
