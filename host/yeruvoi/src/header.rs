//! What include/monitor.h says: its sizes without their prefix, and
//! `sentence`, the words for each number.

include!(concat!(env!("OUT_DIR"), "/header.rs"));

/// Of the command and of the archive that it is linked with.
pub const VERSION: &str = env!("MONITOR_VERSION");

/// Of the Rattle kit that the archive was proved with.
pub const KIT: &str = env!("KIT_VERSION");
