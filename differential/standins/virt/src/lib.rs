//! Stand-in for virt: the rows that `to_leaves` gives, kept as they come.

/// A row; `index` is its subleaf, and the registers stand in the order EAX, EBX, ECX, EDX.
pub struct CpuidLeaf {
    pub function: u32,
    pub index: Option<u32>,
    pub result: [u32; 4],
}

impl CpuidLeaf {
    pub fn new(function: u32, result: [u32; 4]) -> Self {
        Self { function, index: None, result }
    }

    pub fn indexed(self, index: u32) -> Self {
        Self { index: Some(index), ..self }
    }
}

pub struct CpuidLeafSet {
    leaves: Vec<CpuidLeaf>,
}

impl CpuidLeafSet {
    pub fn new(leaves: Vec<CpuidLeaf>) -> Self {
        Self { leaves }
    }

    pub fn leaves(&self) -> &[CpuidLeaf] {
        &self.leaves
    }
}

pub enum IsolationType {
    Snp,
}

impl IsolationType {
    pub fn to_hv(self) -> hvdef::HvPartitionIsolationType {
        hvdef::HvPartitionIsolationType::SNP
    }
}
