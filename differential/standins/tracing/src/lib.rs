//! Stand-in for tracing: no line is traced. What the macros are given is only read, so that leaving it out changes no answer.

#[macro_export]
macro_rules! trace {
    ($($any:tt)*) => {};
}

#[macro_export]
macro_rules! warn {
    ($($any:tt)*) => {};
}
