//! The data types of constraints.rs that lattice.rs names, cut out of docs/src by build.rs.

use std::collections::{BTreeMap, BTreeSet};

use crate::ir::{analysis::SsaVar, ArgType};

include!(concat!(env!("OUT_DIR"), "/constraints.rs"));
