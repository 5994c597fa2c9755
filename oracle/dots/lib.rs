//! The board in dots, written plainly from the build paper, a file a paragraph. It shares no code with the proved core: it is what
//! that core is compared with, and timed against.
pub mod board;
pub mod checks;
pub mod fill;
pub mod fr;
pub mod kinds;
pub mod sheet;
pub mod sizing;
pub mod spans;
pub mod watch;
