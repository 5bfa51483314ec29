//! Stand-in for vm_topology: the types that the `Tdx` parameters name. No value of them is ever made.

pub mod processor {
    pub struct ProcessorTopology<T>(T);

    pub mod x86 {
        pub struct X86Topology;
    }
}
