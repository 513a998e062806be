//! Names that `cancellation.rs` gives on; nothing here uses them.

pub struct MeterBytes;
pub struct MeterBytesError;
