//! Stand-in for serde_json: ir.rs names the crate and uses nothing of it.
