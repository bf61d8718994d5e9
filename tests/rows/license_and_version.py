"""The license and the kernel version."""
from rows.case import Case
from rows.elf import File


def section(name, data):
    return File().data(name, data).bytes()


def cases():
    licenses = [
        ("no byte of a license", b"", "InvalidLicense { bytes: [] }"),
        ("an empty license", b"\0", "InvalidLicense { bytes: [0] }"),
        ("a license without its zero", b"GPL", "MissingLicenseNullTerminator { bytes: [71, 80, 76] }"),
        ("a license", b"GPL\0", "[71, 80, 76] None"),
        ("a license with a byte behind its zero", b"A\0B", "InvalidLicense { bytes: [65, 0, 66] }"),
        ("a license with two zeros", b"A\0\0", "InvalidLicense { bytes: [65, 0, 0] }"),
    ]
    versions = [
        ("a version of three bytes", b"123", "InvalidKernelVersion { bytes: [49, 50, 51] }"),
        ("any version", b"\xfe\xff\xff\xff", "[71, 80, 76] None"),
        ("a version", b"\xd2\x04\0\0", "[71, 80, 76] Some(1234)"),
        ("a large version", b"\xff\xff\xff\xfe", "[71, 80, 76] Some(4278190079)"),
    ]
    # The first section of the whole name counts.
    three = File().data("license.other", b"A\0").data("license", b"B\0").data("license", b"C\0").bytes()
    return (
        [Case(name, section("license", data), {"parsed license_and_version": given}) for name, data, given in licenses]
        + [Case(name, section("version", data), {"parsed license_and_version": given}) for name, data, given in versions]
        + [Case("three licenses", three, {"parsed license_and_version": "[66] None"})]
    )
