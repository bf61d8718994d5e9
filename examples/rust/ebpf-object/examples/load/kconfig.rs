//! Values of the kconfig externs.
use crate::Fault;
use ebpf_object::Object;
use std::fs;
use std::process::Command;

fn release() -> Result<String, Fault> {
    Ok(fs::read_to_string("/proc/sys/kernel/osrelease")?.trim().to_owned())
}

fn version(major: u64, minor: u64, patch: u64) -> u64 {
    major << 16 | minor << 8 | patch.min(255)
}

/// The version of the running kernel, by its release, as 6.12.3-amd64.
fn running_version() -> Result<u64, Fault> {
    let release = release()?;
    let mut parts = release.split(|it: char| !it.is_ascii_digit()).map(str::parse::<u64>);
    match (parts.next(), parts.next(), parts.next()) {
        (Some(Ok(major)), Some(Ok(minor)), patch) => Ok(version(major, minor, patch.and_then(Result::ok).unwrap_or(0))),
        _ => Err(format!("the kernel's release {release} begins with no version").into()),
    }
}

/// What a loader knows by the kernel's version alone.
fn known(name: &str) -> Result<Option<u64>, Fault> {
    let running = running_version()?;
    Ok(match name {
        "LINUX_KERNEL_VERSION" => Some(running),
        "LINUX_HAS_BPF_COOKIE" => Some((running >= version(5, 15, 0)).into()),
        "LINUX_HAS_SYSCALL_WRAPPER" => Some((running >= version(4, 17, 0)).into()),
        _ => None,
    })
}

/// The configuration of the running kernel, or that of a file; empty where it can't be read.
fn config(given: Option<&str>) -> Result<Vec<u8>, Fault> {
    if let Some(path) = given {
        return fs::read(path).map_err(|error| format!("{path}: {error}").into());
    }
    if let Ok(config) = fs::read(format!("/boot/config-{}", release()?)) {
        return Ok(config);
    }
    let unpacked = Command::new("zcat").arg("/proc/config.gz").output();
    Ok(unpacked.ok().filter(|it| it.status.success()).map(|it| it.stdout).unwrap_or_default())
}

/// Defines the kconfig externs by the values that are known; the library refuses where one is wanted and isn't known.
pub fn define(object: &mut Object, config_path: Option<&str>) -> Result<(), Fault> {
    let externs = object.kconfig()?;
    if externs.is_empty() {
        return Ok(());
    }
    let config = config(config_path)?;
    let mut values = Vec::new();
    for it in &externs {
        let value = match known(&it.name)? {
            Some(number) => Some(object.kconfig_number(&it.name, number)?),
            None => object.kconfig_value(&it.name, &config)?,
        };
        values.extend(value.map(|value| (it.name.as_str(), value)));
    }
    let rows: Vec<(&str, &[u8])> = values.iter().map(|(name, value)| (*name, value.as_slice())).collect();
    Ok(object.define_kconfig(&rows)?)
}
