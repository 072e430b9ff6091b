//! The questions of documents 01 to 03, in the words of roqshyn.h, and what is wrong where the answer is a no.
use core::fmt;

macro_rules! questions {
    ($($number:literal $name:ident $question:literal $wrong:literal)*) => {
        /// What was wrong, by the first question that a call answered with a no. The call has changed nothing.
        #[derive(Clone, Copy, Debug, PartialEq, Eq, Hash)]
        #[non_exhaustive]
        #[repr(u32)]
        pub enum Error {
            $(#[doc = concat!("Question ", $number, ", ", $question, ": ", $wrong, ".")] $name = $number,)*
            /// A question that the archive asks and these bindings do not know.
            Unknown = u32::MAX,
        }

        impl Error {
            /// All of them that these bindings know.
            pub const ALL: &'static [Error] = &[$(Error::$name),*];

            #[inline]
            fn of(answer: u32) -> Error {
                match answer {
                    $($number => Error::$name,)*
                    _ => Error::Unknown,
                }
            }

            /// What was asked.
            pub fn question(self) -> &'static str {
                match self {
                    $(Error::$name => $question,)*
                    Error::Unknown => "a question that these bindings do not know",
                }
            }

            /// What was wrong.
            pub fn wrong(self) -> &'static str {
                match self {
                    $(Error::$name => $wrong,)*
                    Error::Unknown => "something that these bindings do not know",
                }
            }
        }
    };
}

questions! {
    1 StoreLength "the lent store has exactly 16 x C pixels"
        "the lent store does not have exactly 16 x C pixels"
    2 Capacity "C is 1 to 1,048,576"
        "C is not 1 to 1,048,576"
    3 UnknownId "the id is below 16 and in use"
        "no window has the id"
    4 NoFreeId "an id is unused"
        "all 16 ids are in use"
    5 TooLarge "coordinates and sizes are at most 32,767"
        "a coordinate or a size is above 32,767"
    6 WindowSize "w x h is at most C"
        "w x h is above C"
    7 Stride "the stride is at least 1"
        "the stride is 0"
    8 ScreenSize "the screen's width and height are 1 to 32,767, its length their product"
        "the screen's width or height is not 1 to 32,767, or its length not their product"
    9 ListLength "the lent list holds 4 numbers for each visible rectangle"
        "the lent list is too short for the visible rectangles"
    10 NoEvent "there is an event to pop"
        "the window has no event to pop"
    11 NoWindow "there is a window to take the event"
        "no window takes the event"
    12 QueueFull "its queue has a free place"
        "the window's queue is full"
    13 OutsidePixels "the part lies in the pixels"
        "the part does not lie in the pixels"
    14 EdgeTooLarge "x + w and y + h are at most 4,294,967,295"
        "x + w or y + h is above 4,294,967,295"
    15 DisplaySize "the display has pixels, its x + w and y + h are at most 32,767"
        "the display has no pixels, or its x + w or y + h is above 32,767"
    16 TooManyDisplays "fewer than eight displays are present"
        "eight displays are present already"
    17 Layer "the layer is at most 1"
        "the layer is above 1"
    18 NoSheet "the bytes are a valid sheet"
        "the bytes are no valid sheet"
    19 SheetLength "the buffer holds the sheet, or the list 4 numbers for each of its rectangles"
        "the buffer is too short for the sheet, or the list for its rectangles"
    20 NoWalk "a walk was begun, and is neither over nor dropped"
        "no walk was begun, or it is over or dropped"
    21 KeyFire "the event is no KeyFire, asked before every other"
        "the event is a KeyFire"
    22 Look "the look fits, or its factor is 0.25, 0.5, 1, 2 or 4 and its corner in quarters, 0 to 32,767"
        "the look's factor is not 0.25, 0.5, 1, 2 or 4, or its corner not in quarters, 0 to 32,767"
    23 TargetSize "the target's width and height are 1 to 32,767, its length their product"
        "the target's width or height is not 1 to 32,767, or its length not their product"
    24 NotInView "the window is shown and has pixels"
        "the window is hidden or has no pixels"
    25 Points "at most 32 points, each x with its y, and 3 numbers for each in the list"
        "more than 32 points, an x without its y, or a list with fewer than 3 numbers for each point"
    26 RunLength "the run has at most 4,096 times"
        "the run has more than 4,096 times"
    27 TimesDescend "no time is below the one before it"
        "a time is below the one before it"
    28 WhichCall "the call that is meant is 0, 1 or 2"
        "the call that is meant is above 2"
}

impl Error {
    /// The number of the question.
    #[inline]
    pub fn number(self) -> u32 {
        self as u32
    }

    /// What a call made of an answer: `Ok` for 0.
    #[inline]
    pub(crate) fn checked(answer: u32) -> Result<(), Error> {
        match answer {
            0 => Ok(()),
            no => Err(Error::of(no)),
        }
    }
}

impl fmt::Display for Error {
    fn fmt(&self, f: &mut fmt::Formatter<'_>) -> fmt::Result {
        f.write_str(self.wrong())
    }
}

impl core::error::Error for Error {}
