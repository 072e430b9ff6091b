//! Stand-in: events as document 01 has them. A key and a text are one number, passed on unread.

#[derive(Clone, Copy, Debug)]
pub enum Event {
    Resize,
    KeyDown(u32),
    KeyUp(u32),
    KeyFire(u32),
    Text(u32),
    MouseMove(u32, u32, i16, i16),
    MouseDown(u32, u32, u8),
    MouseClick(u32, u32, u8, u8),
    MouseUp(u32, u32, u8),
}
