//! Stand-in: the picture that the original shows on a panic of the kernel has one pixel here, and is never shown.
pub mod panic {
    pub const DIMS: (u32, u32) = (1, 1);
    pub static DATA: [Row; 0] = [];

    pub struct Row;

    impl Row {
        pub fn decompress(&self, _row: &mut [u32]) {}
    }
}
