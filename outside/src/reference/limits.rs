//! Document 01's limits, each named once ("What is counted").

pub const CONDITIONS_MOST: usize = 32;
pub const REQUIREMENTS_MOST: usize = 16;
pub const RUNS_MOST: usize = 64;
pub const REQUIREMENT_ROWS_MOST: usize = 32;
pub const TABLE_ROWS_MOST: usize = 224;
pub const STEPS_MOST: usize = 4_096;
pub const FILE_LEAST: usize = 4;
pub const FILE_MOST: usize = 65_535;

pub const ROW_BYTES: usize = 3;
pub const STEP_BYTES: usize = 4;
pub const ENTRY_BYTES: usize = 4;
pub const COUNT_BYTES: usize = 2;
