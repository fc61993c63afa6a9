//! Which processor this is, and why figures taken here would say nothing.

/// Its name, as it gives it.
pub fn name() -> String {
    let brand = brand();
    match brand.is_empty() {
        true => "a processor without a name".to_string(),
        false => brand,
    }
}

/// Why no report is to be written here; nothing on a processor, in an optimised build.
pub fn unfit() -> Option<String> {
    if cfg!(debug_assertions) {
        return Some("this build is not optimised; use `--release`".to_string());
    }
    emulator(&hypervisor(), &brand(), &cpuinfo())
        .map(|name| format!("this runs under {name}, whose times are not those of a processor"))
}

/// What emulates the processor, by its own word, by the name that it gives the processor, or since the system beneath
/// has another one.
fn emulator(hypervisor: &str, brand: &str, cpuinfo: &str) -> Option<&'static str> {
    if hypervisor.starts_with("TCGTCGTCG") || brand.contains("TCG") {
        return Some("QEMU");
    }
    if brand.contains("VirtualApple") {
        return Some("Rosetta");
    }
    let another = !cpuinfo.is_empty() && !cpuinfo.contains(OWN);
    another.then_some("an emulator")
}

/// What a system on the processor that this was built for says of it.
#[cfg(not(target_arch = "aarch64"))]
const OWN: &str = "vendor_id";
#[cfg(target_arch = "aarch64")]
const OWN: &str = "CPU implementer";

/// What is to be known of an archive for another processor than the one it is proved and made for; nothing on x86-64.
pub fn another() -> Option<&'static str> {
    cfg!(target_arch = "aarch64").then_some(
        "The archive is for x86-64, where nothing was measured. These figures are of the same module, compiled for this \
         Arm processor with the same options, and of the Rust compiled for it too: read the ratios and the \
         growth, not the times.",
    )
}

/// How much else the machine does: the load of the last minute and the processors that share it.
pub fn load() -> Option<(f64, usize)> {
    let text = std::fs::read_to_string("/proc/loadavg").ok()?;
    let load = text.split(' ').next()?.parse().ok()?;
    Some((load, std::thread::available_parallelism().ok()?.get()))
}

fn cpuinfo() -> String {
    std::fs::read_to_string("/proc/cpuinfo").unwrap_or_default()
}

#[cfg(target_arch = "x86_64")]
fn brand() -> String {
    let leaves = [0x8000_0002, 0x8000_0003, 0x8000_0004];
    match leaf(0x8000_0000)[0] >= leaves[2] {
        true => text(&leaves.map(leaf).concat()),
        false => String::new(),
    }
}

#[cfg(target_arch = "x86_64")]
fn hypervisor() -> String {
    text(&leaf(0x4000_0000)[1..])
}

/// eax, ebx, ecx, edx.
#[cfg(target_arch = "x86_64")]
#[allow(unused_unsafe)]
fn leaf(number: u32) -> [u32; 4] {
    // SAFETY: every x86-64 processor has the instruction.
    let found = unsafe { std::arch::x86_64::__cpuid(number) };
    [found.eax, found.ebx, found.ecx, found.edx]
}

#[cfg(target_arch = "x86_64")]
fn text(registers: &[u32]) -> String {
    let bytes = registers.iter().flat_map(|register| register.to_le_bytes());
    let bytes: Vec<u8> = bytes.take_while(|byte| *byte != 0).collect();
    String::from_utf8_lossy(&bytes).trim().to_string()
}

/// Who made it and which part it is: the system has no name of it.
#[cfg(not(target_arch = "x86_64"))]
fn brand() -> String {
    arm_part(&cpuinfo())
}

/// Of Arm's own parts by their numbers, those that servers have.
#[cfg(any(test, not(target_arch = "x86_64")))]
fn arm_part(cpuinfo: &str) -> String {
    let field = |name: &str| {
        let mut lines = cpuinfo.lines().filter_map(|line| line.split_once(':'));
        let found = lines.find(|(field, _)| field.trim() == name);
        found.map_or("", |(_, value)| value.trim())
    };
    let (maker, part) = (field("CPU implementer"), field("CPU part"));
    let known = match (maker, part) {
        ("0x41", "0xd08") => "Cortex-A72",
        ("0x41", "0xd0c") => "Neoverse N1",
        ("0x41", "0xd40") => "Neoverse V1",
        ("0x41", "0xd49") => "Neoverse N2",
        ("0x41", "0xd4f") => "Neoverse V2",
        ("", _) => return String::new(),
        _ => return format!("an Arm processor (maker {maker}, part {part})"),
    };
    format!("an Arm {known}")
}

#[cfg(not(target_arch = "x86_64"))]
fn hypervisor() -> String {
    String::new()
}

#[cfg(test)]
mod tests {
    use super::*;

    #[test]
    fn emulators_are_known() {
        let info = &format!("processor : 0\n{OWN} : a name\n");
        assert_eq!(emulator("", "Intel(R) Xeon(R)", info), None);
        assert_eq!(
            emulator("KVMKVMKVM", "QEMU Virtual CPU version 2.5+", info),
            None
        );
        assert_eq!(emulator("", "AMD EPYC 7763", ""), None);
        assert_eq!(emulator("TCGTCGTCGTCG", "QEMU TCG CPU", info), Some("QEMU"));
        assert_eq!(
            emulator("", "QEMU TCG CPU version 2.5+", info),
            Some("QEMU")
        );
        assert_eq!(
            emulator("", "VirtualApple @ 2.50GHz", info),
            Some("Rosetta")
        );
        let other = "processor : 0\nisa : rv64imafdc\n";
        assert_eq!(emulator("", "some name", other), Some("an emulator"));
    }

    #[test]
    fn parts_of_arm_have_names() {
        let of = |maker, part| {
            arm_part(&format!(
                "processor\t: 0\nCPU implementer\t: {maker}\nCPU part\t: {part}\n"
            ))
        };
        assert_eq!(of("0x41", "0xd0c"), "an Arm Neoverse N1");
        assert_eq!(
            of("0xc0", "0xac3"),
            "an Arm processor (maker 0xc0, part 0xac3)"
        );
        assert_eq!(arm_part("vendor_id : GenuineIntel\n"), "");
    }

    #[test]
    fn a_build_without_optimisation_writes_no_report() {
        assert!(unfit().is_some() || !cfg!(debug_assertions));
        assert!(!name().is_empty());
    }
}
