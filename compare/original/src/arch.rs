//! Stand-in: there is no boot.
pub mod boot {
    pub fn release_preboot_video() {}
}
