//! The crate and the archive are of one version.

use turns::VERSION;

#[test]
fn the_archive_is_of_the_version_of_the_crate() {
    assert_eq!(turns::version(), VERSION);
}

#[test]
fn the_version_is_that_of_the_package() {
    let [major, minor, patch] = [
        env!("CARGO_PKG_VERSION_MAJOR"),
        env!("CARGO_PKG_VERSION_MINOR"),
        env!("CARGO_PKG_VERSION_PATCH"),
    ]
    .map(|number| number.parse::<u32>().expect("cargo gives a number"));
    assert_eq!(VERSION, 10_000 * major + 100 * minor + patch);
}
