//! The entries of "Not common" that an accepted call can fall under, and a release that is refused too.

#[derive(Clone, Copy, Debug, PartialEq, Eq, PartialOrd, Ord)]
pub enum Entry {
    SomeEntriesMet,
    PiecesApart,
    BarePixels,
    MergeLeft,
    MergeUp,
    BlitEmpty,
    BlitStride,
    WidenRows,
    NarrowTaller,
    SeventeenthEntry,
    Portion,
    DimmingOn,
    ReleaseOff,
    LayerOne,
    NoDisplay,
    BelowZero,
    NothingShown,
    MaximisedOff,
    FlagKept,
    Raised,
    Dragged,
}

impl Entry {
    pub const ALL: [Entry; 21] = [
        Entry::SomeEntriesMet,
        Entry::PiecesApart,
        Entry::BarePixels,
        Entry::MergeLeft,
        Entry::MergeUp,
        Entry::BlitEmpty,
        Entry::BlitStride,
        Entry::WidenRows,
        Entry::NarrowTaller,
        Entry::SeventeenthEntry,
        Entry::Portion,
        Entry::DimmingOn,
        Entry::ReleaseOff,
        Entry::LayerOne,
        Entry::NoDisplay,
        Entry::BelowZero,
        Entry::NothingShown,
        Entry::MaximisedOff,
        Entry::FlagKept,
        Entry::Raised,
        Entry::Dragged,
    ];

    pub fn text(self) -> &'static str {
        match self {
            Entry::SomeEntriesMet => "a higher window meets some entries",
            Entry::PiecesApart => "bare pieces of rectangles that don't meet",
            Entry::BarePixels => "bare pixels of another length",
            Entry::MergeLeft => "a merge to the left",
            Entry::MergeUp => "a merge upward",
            Entry::BlitEmpty => "a blit of an empty area",
            Entry::BlitStride => "a blit with stride above the width",
            Entry::WidenRows => "a widening from two or more rows",
            Entry::NarrowTaller => "a narrowing to greater height",
            Entry::SeventeenthEntry => "a 17th dirty entry",
            Entry::Portion => "a portion of a redraw",
            Entry::DimmingOn => "a switch of dimming on",
            Entry::ReleaseOff => "a release off the window of its press",
            Entry::LayerOne => "a change to layer 1",
            Entry::NoDisplay => "no display is there",
            Entry::BelowZero => "a difference below 0 in the 20 pixel rule",
            Entry::NothingShown => "an update with nothing shown",
            Entry::MaximisedOff => "an update, a maximised window on no display",
            Entry::FlagKept => "an update after a flag was cleared",
            Entry::Raised => "a raise",
            Entry::Dragged => "a drag",
        }
    }
}
