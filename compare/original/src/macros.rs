//! The kernel's macros. Log lines are dropped, and their arguments are not looked at.

macro_rules! log_trace {
    ($($t:tt)*) => {
        ()
    };
}
macro_rules! log_debug {
    ($($t:tt)*) => {
        ()
    };
}
macro_rules! log_log {
    ($($t:tt)*) => {
        ()
    };
}
macro_rules! log_notice {
    ($($t:tt)*) => {
        ()
    };
}
macro_rules! log_warning {
    ($($t:tt)*) => {
        ()
    };
}
macro_rules! log_error {
    ($($t:tt)*) => {
        ()
    };
}

macro_rules! module_define {
    ($($t:tt)*) => {};
}
macro_rules! lazymutex_init {
    () => {
        ::kernel::sync::mutex::LazyMutex::new()
    };
}
macro_rules! lazystatic_init {
    () => {
        ::kernel::lib::LazyStatic::new()
    };
}

macro_rules! assert_trait {
    ($of:ty : $what:ident) => {
        const _: fn() = || {
            fn holds<T: $what>() {}
            holds::<$of>();
        };
    };
}

macro_rules! impl_fmt {
    ($($what:ident($me:ident, $f:ident) for $of:ty { $($body:tt)* })*) => {$(
        impl ::std::fmt::$what for $of {
            fn fmt(&$me, $f: &mut ::std::fmt::Formatter) -> ::std::fmt::Result { $($body)* }
        }
    )*};
}
