//! A plain checker: what an engineer would write who proves nothing. It borrows the bytes of an image, reads each table
//! once or twice, and sorts what has to be compared. It asks what the eighteen stages ask, with these simplifications:
//!
//! - a structure lies in one piece, and nobody looks whether two pieces share an address;
//! - each I/O APIC has the same number of inputs, and all memory ranges are compared with one another;
//! - of a fault it gives the stage and a place, which need not be those of the first fault.

mod across;
mod bytes;
mod fixed;
mod madt;
mod pptt;
mod srat;
mod text;

pub use bytes::Piece;
pub use fixed::{listed, Tables};
pub use text::pieces_of;

/// A stage, and where it fails: an offset in its table, the number of a slot, or 0.
pub type Fault = (u8, usize);

/// The first stage that fails. `tables` are those that the image lists; each I/O APIC has so many inputs.
pub fn check(pieces: &[Piece], tables: &Tables, inputs: u32) -> Result<(), Fault> {
    fixed::check_fadt(pieces, tables.fadt)?;
    let madt = tables.madt.map(|madt| madt::read(madt, inputs, tables.pptt.is_some())).transpose()?;
    let srat = tables.srat.map(srat::read).transpose()?;
    tables.slit.map_or(Ok(()), fixed::check_slit)?;
    let leaves = tables.pptt.map(pptt::read).transpose()?;
    if let (Some(madt), Some(affinities)) = (tables.madt, srat) {
        across::check_domains(madt, affinities)?;
    }
    let Some(madt) = madt else { return Ok(()) };
    across::check_named(&madt.bases, madt.named, inputs)?;
    across::check_leaves(madt.uids, leaves.unwrap_or_default())
}
