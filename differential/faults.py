#!/usr/bin/env python3
"""That the comparison catches faults: each edit below gives a copy of the Rust one wrong reading, and the quick form must then find a difference.

faults.py           tries all, some minutes
faults.py NAME ..   tries these

OPENVMM_CVM_CPUID names the folder with mod.rs, snp.rs and masking.rs, as for the comparison.
"""
import os
from pathlib import Path
import shutil
import subprocess
import sys

HERE = Path(__file__).resolve().parent
WORK = HERE / 'target' / 'faults'

# name, file, a text that stands there, what takes its place. The first five are misreadings of document 01.
FAULTS = [
    ('Dh skipped on page 0 only', 'snp.rs', 'self.index.page_index != 1', 'self.index.page_index == 0'),
    ('last duplicate wins', 'mod.rs', 'if subtable.get(&subleaf).is_none()', 'if true'),
    ('size by the combined mask', 'mod.rs', 'self.xsave_size(max_xfem)', 'self.xsave_size(max_extended_state)'),
    ('CET for one XSS bit', 'mod.rs', '!= xsave::XSAVE_SUPERVISOR_FEATURE_CET {', '== 0 {'),
    ('INVLPGB before the leaves', 'snp.rs', 'for &(leaf, subleaf) in SNP_REQUIRED_LEAVES {',
     'if results.leaf_result_ref(CpuidFunction::ExtendedAddressSpaceSizes, None, true).is_some_and(|r| r.ebx & 8 == 0) {'
     ' return Err(CpuidResultsError::InvlpgbUnavailable); } for &(leaf, subleaf) in SNP_REQUIRED_LEAVES {'),
    ('one bit of a mask', 'masking.rs', '.with_rd_seed(true)', '.with_rd_seed(false)'),
    ('secure AVIC always', 'snp.rs', '.with_secure_avic(self.secure_avic)', '.with_secure_avic(true)'),
    ('SMT from two threads more', 'snp.rs', 'threads_per_compute_unit() > 0', 'threads_per_compute_unit() > 1'),
    ('counts compared at 256', 'snp.rs', 'if vps_per_socket < 256', 'if vps_per_socket < 512'),
    ('counts not compared at 128', 'snp.rs', 'if vps_per_socket < 256', 'if vps_per_socket < 128'),
    ('as many threads as processors', 'snp.rs', 'as u32 >= vps_per_socket)', 'as u32 > vps_per_socket)'),
    ('nc + 1 below v', 'snp.rs', 'nc() + 1) as u32 > vps_per_socket', 'nc() + 1) as u32 >= vps_per_socket'),
    ('shift rounded up', 'snp.rs', 'vps_per_socket.highest_one().unwrap_or(0)', '(32 - (vps_per_socket - 1).leading_zeros())'),
    ('XSS from XSAVEC alone', 'mod.rs', 'subleaf1.xsave_s() && subleaf1.xsave_c()', 'subleaf1.xsave_s() || subleaf1.xsave_c()'),
    ('XSS row kept', 'mod.rs', 'if max_xss == 0 {', 'if false {'),
    ('legacy bits not set', 'mod.rs', 'masked.eax |= xsave::X86X_XSAVE_LEGACY_FEATURES as u32;', ''),
    ('AVX-512 for one bit', 'mod.rs', 'xsave_support & xsave::XFEATURE_AVX512 != xsave::XFEATURE_AVX512',
     'xsave_support & xsave::XFEATURE_AVX512 == 0'),
    ('F16C by the state', 'mod.rs', 'clear_version_and_features0_ecx.set_fma(true);',
     'clear_version_and_features0_ecx.set_fma(true); clear_version_and_features0_ecx.set_f16c(true);'),
    ('STIBP kept', 'mod.rs', 'updated_sizes.set_stibp(false);', ''),
    ('RDPID kept', 'mod.rs', '.with_rd_pid(false)', '.with_rd_pid(true)'),
    ('BTC_NO as the server has it', 'snp.rs', 'Some(true)\n    }', 'None\n    }'),
    ('B.2 kept', 'mod.rs', 'CPUID_LEAF_B_MAX_SUBLEAF_INDEX: u32 = 1', 'CPUID_LEAF_B_MAX_SUBLEAF_INDEX: u32 = 2'),
    ('a fifth cache', 'snp.rs', 'if subleaf <= 3', 'if subleaf <= 4'),
    ('topology before extended state', 'mod.rs', 'self.update_extended_state(arch_initializer)?;',
     'self.update_extended_topology(arch_initializer)?; self.update_extended_state(arch_initializer)?;'),
    # document 02, P10: "XCR0_IN and XSS_IN remain unread", and the Rust tells no reserved byte from zero
    ('XCR0_IN read', 'snp.rs', 'ecx: leaf.ecx_out,', 'ecx: leaf.ecx_out | leaf.xfem_in as u32,'),
    ('XSS_IN read', 'snp.rs', 'ecx: leaf.ecx_out,', 'ecx: leaf.ecx_out | leaf.xss_in as u32,'),
    ('a reserved word read', 'snp.rs', 'edx: leaf.edx_out,', 'edx: leaf.edx_out | unsafe { *std::ptr::from_ref(leaf).cast::<u32>().add(11) },'),
]


def tried(source, name, file, old, new):
    """Whether the quick form finds a difference; None where the edit does not apply or does not compile."""
    folder = WORK / 'source'
    shutil.rmtree(folder, ignore_errors=True)
    folder.mkdir(parents=True)
    for each in ('mod.rs', 'snp.rs', 'masking.rs'):
        (folder / each).write_bytes((source / each).read_bytes())
    text = (folder / file).read_text()
    if old not in text:
        return None
    (folder / file).write_text(text.replace(old, new, 1))
    environment = {**os.environ, 'OPENVMM_CVM_CPUID': str(folder), 'CARGO_TARGET_DIR': str(WORK)}
    cargo = ['cargo', '--offline']
    if subprocess.run([*cargo, 'build', '--release', '-p', 'compare'], cwd=HERE, env=environment, capture_output=True).returncode:
        return None
    command = [WORK / 'release' / 'compare', '--quick', '--out', WORK / 'difference.pages']
    ran = subprocess.run(command, capture_output=True, text=True)
    return ran.returncode == 1 and ran.stdout.startswith('DIFFERENCE')


def main(names):
    if 'OPENVMM_CVM_CPUID' not in os.environ:
        sys.exit(__doc__)
    source = Path(os.environ['OPENVMM_CVM_CPUID'])
    words = {True: 'found', False: 'NOT FOUND', None: 'THE EDIT DOES NOT APPLY OR COMPILE'}
    missed = 0
    for name, *edit in FAULTS:
        if not names or name in names:
            found = tried(source, name, *edit)
            missed += found is not True
            print(f'{name}: {words[found]}', flush=True)
    return 1 if missed else 0


if __name__ == '__main__':
    sys.exit(main(sys.argv[1:]))
