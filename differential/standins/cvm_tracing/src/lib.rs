//! Stand-in for cvm_tracing: the mark that goes with a traced line.

pub const CVM_ALLOWED: () = ();
