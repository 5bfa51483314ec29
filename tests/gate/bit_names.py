"""Holds every named bit and field of crates/x86defs/specs against the public lines of cpuid-bits.csv.

Usage: python3 -m tests.gate.bit_names [SPECS]. Prints one line for each failure, then a count, and exits with 1 if any
failed. A name counts once for each register it stands in: processor_type stands in 1.EAX and in 80000001h.EAX.
Registers are written as in document 01: 80000008h.EBX, D.1.ECX.
"""
from collections import namedtuple
from pathlib import Path
import re
import sys

import cpuid_csv

SPECS = Path(__file__).resolve().parents[2] / 'crates' / 'x86defs' / 'specs'

# One name as the files give it: bits low to high, both included.
Named = namedtuple('Named', 'register name low high')


def pairs(text):
    return dict(pair.split('=') for pair in text.split())


# register -> our name -> short name in cpuid-bits.csv
OURS = {register: pairs(text) for register, text in {
    '1.EAX': '''processor_stepping=stepping processor_model=base_model processor_family=base_family_id
        processor_type=cpu_type extended_model=ext_model extended_family=ext_family''',
    '1.EBX': '''brand_index=brand_id clflush_line_size=clflush_size lps_per_package=n_logical_cpu
        initial_apic_id=local_apic_id''',
    '1.ECX': '''sse3=pni pclmulqdq=pclmulqdq ssse3=ssse3 fma=fma cx16=cx16 pcid=pcid sse4_1=sse4_1 sse4_2=sse4_2
        movbe=movbe pop_cnt=popcnt aes=aes xsave=xsave os_xsave=osxsave avx=avx f16c=f16c rd_rand=rdrand
        hypervisor_present_lem=guest_status''',
    '1.EDX': '''fpu=fpu vme=vme de=de pse=pse tsc=tsc msr=msr pae=pae mce=mce cx8=cx8 apic=apic sep=sep mtrr=mtrr
        pge=pge mca=mca cmov=cmov pat=pat pse36=pse36 cl_fsh=clflush mmx=mmx fxsr=fxsr sse=sse sse2=sse2
        mt_per_socket=ht''',
    '7.0.EBX': '''rd_wr_fs_gs=fsgsbase bmi1=bmi1 avx2=avx2 smep=smep bmi2=bmi2 enhanced_fast_string=erms
        inv_pcid=invpcid dep_x87_fpu_save=zero_fcs_fds avx512f=avx512f avx512dq=avx512dq rd_seed=rdseed adx=adx
        smap=smap avx512_ifma=avx512ifma clflushopt=clflushopt clwb=clwb avx512cd=avx512cd sha=sha_ni
        avx512bw=avx512bw avx512vl=avx512vl''',
    '7.0.ECX': '''avx512_vbmi=avx512vbmi umip=umip umwait_tpause=waitpkg avx512_vbmi2=avx512_vbmi2 cet_ss=cet_ss
        gfni=gfni vaes=vaes vpclmulqdq=vpclmulqdq avx512_vnni=avx512_vnni avx512_bitalg=avx512_bitalg
        avx512_vpopcntdq=avx512_vpopcntdq rd_pid=rdpid cldemote=cldemote movdiri=movdiri movdir64b=movdir64b''',
    '7.0.EDX': '''fast_short_rep_move=fsrm avx512_vp2_intersect=avx512_vp2intersect serialize=serialize
        avx512_fp16=avx512_fp16''',
    'B.0.EAX': 'x2_apic_shift=x2apic_id_shift',
    'B.0.EBX': 'num_lps=domain_lcpus_count',
    'B.0.ECX': 'level_number=domain_nr level_type=domain_type',
    'B.1.EAX': 'x2_apic_shift=x2apic_id_shift',
    'B.1.EBX': 'num_lps=domain_lcpus_count',
    'B.1.ECX': 'level_number=domain_nr level_type=domain_type',
    'D.0.EAX': '''x87=xcr0_x87 sse=xcr0_sse avx=xcr0_avx opmask=xcr0_avx512_opmask zmmhi=xcr0_avx512_zmm_hi256
        zmm16_31=xcr0_avx512_hi16_zmm''',
    'D.1.EAX': 'xsave_opt=xsaveopt xsave_c=xsavec xsave_s=xsaves',
    'D.1.ECX': 'cet_u=xss_cet_u cet_s=xss_cet_p',
    '80000001h.EAX': '''processor_stepping=e_stepping_id processor_model=e_base_model processor_family=e_base_family
        extended_model=e_ext_model extended_family=e_ext_family''',
    '80000001h.EBX': 'brand_id=brand_id pkg_type=pkg_type',
    '80000001h.ECX': '''lahf_sahf_available=lahf_lm cmp_legacy=cmp_legacy alt_mov_cr8=cr8_legacy abm=abm sse4_a=sse4a
        mis_align_sse=misalignsse prefetch=3dnowprefetch ibs=ibs xop=xop fma4=fma4 topology_extensions=topoext''',
    '80000001h.EDX': '''fpu=e_fpu vme=e_vme de=e_de pse=e_pse tsc=e_tsc msr=e_msr pae=pae mce=mce cx8=cx8 apic=apic
        syscall=syscall mtrr=mtrr pge=pge mca=mca cmov=cmov pat=pat pse36=pse36 no_execute=nx amd_mmx=mmxext
        fxsr=e_fxsr fast_fxsr=fxsr_opt page_1gb=pdpe1gb rdtscp=rdtscp long_mode=lm extended3d_now=3dnowext
        amd3d_now=3dnow''',
    '80000008h.EAX': 'physical_address_size=phys_addr_bits virtual_address_size=virt_addr_bits',
    '80000008h.EBX': '''cl_zero=clzero inst_ret_cnt_msr=irperf x_save_er_ptr=xsaveerptr invlpgb=invlpgb rdpru=rdpru
        wbnoinvd=wbnoinvd ibpb=amd_ibpb ibrs=amd_ibrs stibp=amd_stibp stibp_always_on=amd_stibp_always_on
        efer_lmsle_unsupported=no_efer_lmsle ssbd=amd_ssbd psfd=amd_psfd btc_no=btc_no''',
    '80000008h.ECX': 'nc=cpu_nthreads apic_core_id_size=apicid_coreid_len',
    '80000008h.EDX': 'invlpgb_count_max=invlpgb_max_pages rdpru_max_ecx=rdpru_max_reg_id',
    '8000000Ah.EAX': 'svm_rev=svm_version',
    '8000001Ah.EAX': 'fp128=fp_128 mov_u=movu_preferred fp256=fp_256',
    '8000001Eh.EBX': 'threads_per_compute_unit=core_nthreas',
    '8000001Fh.EAX': '''sme=sme sev=sev vmpage_flush_msr_available=vm_page_flush sev_es=sev_es
        sev_snp=sev_nested_paging vmpl=vm_permission_levels rmp_query=rpmquery tsc_aux_virtualization=v_tsc_aux''',
    '8000001Fh.EBX': '''cbit_position=pte_cbit_pos encryption_physical_bits_used=phys_addr_reduction_nbits
        number_of_vmpls=vmpl_count''',
}.items()}

# (register, our name) -> bits and the manual that places them
NO_PUBLIC_LINE = {
    ('80000001h.EAX', 'processor_type'):
        (12, 13, 'AMD64 APM volume 3, Fn8000_0001_EAX, a copy of Fn0000_0001_EAX; type: Intel SDM, leaf 01H EAX 13-12'),
    ('80000001h.EDX', 'mmx'): (23, 23, 'AMD64 APM volume 3, Fn8000_0001_EDX bit 23'),
    ('8000001Fh.EAX', 'secure_avic_bit'): (26, 26, 'AMD64 APM volume 3, Fn8000_001F_EAX bit 26'),
}

# set by the port, or kept at the caller's choice: in no `kept` list
NOT_KEPT = {('1.ECX', 'hypervisor_present_lem'), ('8000001Fh.EAX', 'secure_avic_bit')}

LEAF = r'[0-9A-F]+h?(?:\.\d+)?'
REGISTER = r'E[ABCD]X'


def declared(text):
    """The constructors of a file's data declaration, each with the comment last seen above it."""
    block = re.search(r'^pub data (\S+) : Type 0 where\n((?:[ ]+.*\n)+)', text, re.M)
    found, comment = [], ''
    for line in block.group(2).splitlines() if block else []:
        if line.strip().startswith('--'):
            comment = line.strip()
        else:
            found += [(name, comment) for name in line.rsplit(':', 1)[0].split()]
    return found


def compare_sets(path, wanted, found, what):
    """Lines for names that are in one of two lists alone, or twice in the second."""
    lines = [f'{path.name}: {name} is missing among the {what}' for name in wanted if name not in found]
    lines += [f'{path.name}: {name} is wrongly among the {what}' for name in found if name not in wanted]
    return lines + [f'{path.name}: {name} is twice among the {what}' for name in sorted(set(found))
                    if found.count(name) > 1]


def read_register(path, text):
    """The names of one register's file, and the failures."""
    head = re.match(rf'-- ({LEAF}\.{REGISTER})\b', text)
    if not head:
        return [], [f'{path.name}: line 1 names no register']
    register = head.group(1)
    names = [name for name, _ in declared(text)]
    places = re.findall(r'^position (\S+) = (\d+)\s*$', text, re.M)
    failures = compare_sets(path, names, [name for name, _ in places], 'places')
    lists = re.findall(r'^kept\w* =(.*?)\[\]', text, re.M | re.S)
    kept = [name for body in lists for name in body.replace('∷', ' ').split()]
    keepable = [name for name in names if (register, name) not in NOT_KEPT]
    failures += compare_sets(path, keepable, kept, 'kept names')
    return [Named(register, name, int(bit), int(bit)) for name, bit in places], failures


def home(name, comment):
    """The registers that OURS or NO_PUBLIC_LINE gives a field, one for each leaf of the comment over its group."""
    kinds = dict.fromkeys(re.findall(rf'\b{REGISTER}\b', comment))
    leaves = re.findall(rf'\b{LEAF}(?![\w.])', re.sub(rf'\.?\b{REGISTER}\b', '', comment))
    return [[f'{leaf}.{kind}' for kind in kinds if listed(f'{leaf}.{kind}', name)] for leaf in leaves]


def listed(register, name):
    return name in OURS.get(register, {}) or (register, name) in NO_PUBLIC_LINE


def read_fields(path, text):
    """The fields of more than one bit, each in every register of its group, and the failures."""
    names = declared(text)
    spans = re.findall(r'^span (\S+) = bits (\d+) (\d+)\s*$', text, re.M)
    failures = compare_sets(path, [name for name, _ in names], [name for name, _, _ in spans], 'spans')
    found, ranges = [], {name: (int(shift), int(shift) + int(width) - 1) for name, shift, width in spans}
    for name, comment in names:
        homes = home(name, comment)
        if not homes or any(len(registers) != 1 for registers in homes):
            failures.append(f'{path.name}: {name} is not in one table register for each leaf of "{comment}"')
        found += [Named(registers[0], name, *ranges[name]) for registers in homes if registers and name in ranges]
    return found, failures


def read_specs(specs):
    """All names of the folder, and the failures."""
    found, failures = [], []
    for path in sorted(specs.glob('*.antt')):
        text = path.read_text(encoding='utf-8')
        for mark, read in (('pub position :', read_register), ('pub span :', read_fields)):
            if mark in text:
                names, lines = read(path, text)
                found += names
                failures += lines
    return found, failures


def public_lines(lines, register):
    leaf, _, rest = register.partition('.')
    subleaf, _, kind = rest.rpartition('.')
    return cpuid_csv.register_lines(lines, int(leaf.rstrip('h'), 16), int(subleaf or 0), kind)


def plain(name):
    return re.sub(r'[^a-z0-9]', '', name)


def check(named, lines):
    """What is wrong with one name, or None."""
    register, name, low, high = named
    public, short = public_lines(lines, register), OURS.get(register, {}).get(name)
    if (short is not None) + ((register, name) in NO_PUBLIC_LINE) != 1:
        return 'must be in one of OURS and NO_PUBLIC_LINE'
    if short is None:
        first, last, manual = NO_PUBLIC_LINE[register, name]
        rival = [line.name for line in public
                 if line.bits[0] <= high and low <= line.bits[1] or plain(line.name) == plain(name)]
        if rival:
            return f'is listed without a public line, yet there is {rival[0]}'
        return None if (low, high) == (first, last) else f'is at {low}-{high}, the manual has {manual}'
    bits = [line.bits for line in public if line.name == short]
    return None if bits == [(low, high)] else f'is at {low}-{high}, {short} at {bits}'


def stale(found):
    """Table entries whose name the files no longer have, and two names for one public line."""
    seen = {(named.register, named.name) for named in found}
    tables = [(register, name) for register, names in OURS.items() for name in names] + list(NO_PUBLIC_LINE)
    lines = [f'{register} {name}: in the table, not in the files' for register, name in tables
             if (register, name) not in seen]
    return lines + [f'{register}: two names for one public line' for register, names in OURS.items()
                    if len(set(names.values())) < len(names)]


def main(specs):
    lines = cpuid_csv.load()
    found, failures = read_specs(specs)
    for named in found:
        wrong = check(named, lines)
        if wrong:
            failures.append(f'{named.register} {named.name}: {wrong}')
    failures += stale(found)
    for failure in failures:
        print(failure)
    without = sum((named.register, named.name) in NO_PUBLIC_LINE for named in found)
    print(f'{len(found) - without} names held against cpuid-bits.csv, {without} without a public line')
    return 1 if failures else 0


if __name__ == '__main__':
    sys.exit(main(Path(sys.argv[1]) if len(sys.argv) > 1 else SPECS))
