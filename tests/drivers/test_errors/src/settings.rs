//! Why externs of the kernel's configuration can't be listed or defined.

use crate::lines::{Lines, Sample};
use ebpf_kconfig::KconfigError;

impl Sample for KconfigError {
    const TYPE: &'static str = "ebpf_kconfig::KconfigError";

    fn variant(&self) -> &'static str {
        self.variant_name()
    }
}

/// Adds each error of externs of the kernel's configuration: those on the object, and those on values.
pub fn show_all(lines: &mut Lines) {
    lines.show(KconfigError::NotAVariable { type_id: 70 });
    lines.show(KconfigError::UnreadableName { offset: 0x1000 });
    let name = lines.text("HZ");
    lines.show(KconfigError::UnknownName { name });
    let name = lines.text("CONFIG_HZ");
    lines.show(KconfigError::UnsupportedType { name });
    let name = lines.text("CONFIG_HZ");
    lines.show(KconfigError::NoValue { name });
    let name = lines.text("CONFIG_HZ");
    lines.show(KconfigError::WrongSize {
        name,
        size: 4,
        length: 8,
    });
    lines.show(KconfigError::TooLarge);
    let name = lines.text("CONFIG_BPF_SYSCALL");
    lines.show(KconfigError::UnsuitedValue { name });
    let name = lines.text("CONFIG_HZ");
    lines.show(KconfigError::ValueOutOfRange { name });
    lines.show(KconfigError::OutOfMemory);
}
