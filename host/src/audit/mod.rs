//! The audit: the sheets of a manifest judged one after another, and reports of it.

pub mod auditor;
pub mod csv;
pub mod date;
pub mod html;
pub mod json;
pub mod manifest;
pub mod progress;
pub mod row;
pub mod totals;
