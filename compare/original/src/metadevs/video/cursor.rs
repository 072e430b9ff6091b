//! Stand-in: no mouse cursor is drawn.
pub struct CursorHandle;
