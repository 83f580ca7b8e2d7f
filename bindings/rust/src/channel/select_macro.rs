//! The macros over [`Select`](crate::Select).

/// Waits until one of several operations is ready, makes it, and evaluates its arm.
///
/// An arm is one of these:
///
/// - `recv(receiver) -> item => expression`, with a pattern `item` for the result of [`recv`];
/// - `send(sender, item) -> sent => expression`, with a pattern `sent` for the result of [`send`], and `item` is
///   evaluated if this operation is selected; with capacity 0 a receiver waits meanwhile, even if its timeout is over;
/// - `default => expression`, once at most, if no operation is ready;
/// - `default(time) => expression`, if none is ready in that time.
///
/// If several are ready, one of them is made at random; [`select_biased!`](crate::select_biased!) takes the first of them.
/// How it waits, and what it promises, is that of [`Select`](crate::Select). Without a default it waits until
/// an operation is ready.
///
/// [`recv`]: crate::SelectedOperation::recv
/// [`send`]: crate::SelectedOperation::send
///
/// ```
/// use std::time::Duration;
/// use vahepito::{channel, select};
///
/// let (numbers, words) = (channel(1)?, channel(1)?);
/// words.0.send("hello").unwrap();
/// let result = select! {
///     recv(numbers.1) -> number => number.unwrap(),
///     recv(words.1) -> word => word.unwrap().len(),
/// };
/// assert_eq!(result, 5);
/// select! {
///     recv(words.1) -> _ => unreachable!("there is none"),
///     send(numbers.0, 7) -> sent => sent.unwrap(),
/// }
/// select! {
///     send(numbers.0, 8) -> _ => unreachable!("there is no room"),
///     default(Duration::from_millis(5)) => println!("no room in time"),
/// }
/// # Ok::<(), vahepito::OpenError>(())
/// ```
#[macro_export]
macro_rules! select {
    ($($arms:tt)*) => {
        $crate::__select!(@read false [] [] $($arms)*)
    };
}

/// As [`select!`](crate::select!), but if several operations are ready, it makes the first of them.
///
/// ```
/// use vahepito::{channel, select_biased};
///
/// let (urgent, others) = (channel(1)?, channel(1)?);
/// urgent.0.send(1).unwrap();
/// others.0.send(2).unwrap();
/// let first = select_biased! {
///     recv(urgent.1) -> number => number,
///     recv(others.1) -> number => number,
/// };
/// assert_eq!(first, Ok(1));
/// # Ok::<(), vahepito::OpenError>(())
/// ```
#[macro_export]
macro_rules! select_biased {
    ($($arms:tt)*) => {
        $crate::__select!(@read true [] [] $($arms)*)
    };
}

/// Reads the arms one by one: [the operations] [the default arm] and what isn't read yet. Then names the handles, with names of
/// their own; selects; and makes the operation that is selected.
#[doc(hidden)]
#[macro_export]
macro_rules! __select {
    (@read $biased:literal [$($arms:tt)*] [$($default:tt)*]) => {
        $crate::__select!(@name $biased (0) [] [$($default)*] $($arms)*)
    };
    (@read $biased:literal $arms:tt $default:tt default => $($rest:tt)*) => {
        $crate::__select!(@read $biased $arms $default default() => $($rest)*)
    };
    (@read $biased:literal $arms:tt $default:tt
        $kind:ident $of:tt $(-> $result:pat)? => $body:expr $(, $($rest:tt)*)?) => {
        $crate::__select!(@sort $biased $arms $default [$kind $of ($($result)?) $body] $($($rest)*)?)
    };
    (@read $biased:literal $arms:tt $default:tt
        $kind:ident $of:tt $(-> $result:pat)? => $body:block $($rest:tt)*) => {
        $crate::__select!(@sort $biased $arms $default [$kind $of ($($result)?) $body] $($rest)*)
    };
    (@read $biased:literal $arms:tt $default:tt $($wrong:tt)+) => {
        ::core::compile_error!(::core::concat!(
            "expected `recv(receiver) -> item => expression,`, `send(sender, item) -> sent => expression,`, ",
            "`default => expression,` or `default(time) => expression,`; found `",
            ::core::stringify!($($wrong)+), "`"))
    };

    (@sort $biased:literal [$($arms:tt)*] $default:tt
        [recv ($of:expr $(,)?) ($result:pat) $body:expr] $($rest:tt)*) => {
        $crate::__select!(@read $biased [$($arms)* [recv ($of) ($result) $body]] $default $($rest)*)
    };
    (@sort $biased:literal [$($arms:tt)*] $default:tt
        [send ($of:expr, $item:expr $(,)?) ($result:pat) $body:expr] $($rest:tt)*) => {
        $crate::__select!(@read $biased [$($arms)* [send ($of, $item) ($result) $body]] $default $($rest)*)
    };
    (@sort $biased:literal $arms:tt [] [default ($($time:expr $(,)?)?) () $body:expr] $($rest:tt)*) => {
        $crate::__select!(@read $biased $arms [($($time)?) $body] $($rest)*)
    };
    (@sort $biased:literal $arms:tt [$($twice:tt)+] [default $($wrong:tt)*] $($rest:tt)*) => {
        ::core::compile_error!("a select has one `default` arm at most")
    };
    (@sort $biased:literal $arms:tt $default:tt [$kind:ident $of:tt $($wrong:tt)*] $($rest:tt)*) => {
        ::core::compile_error!(::core::concat!(
            "expected `recv(receiver) -> item`, `send(sender, item) -> sent`, `default` or ",
            "`default(time)`; found `", ::core::stringify!($kind $of), "`"))
    };

    (@name $biased:literal ($index:expr) [$($named:tt)*] $default:tt
        [$kind:ident ($of:expr $(, $item:expr)?) ($result:pat) $body:expr] $($arms:tt)*) => {
        match $of {
            ref arm => $crate::__select!(@name $biased ($index + 1)
                [$($named)* [($index) ($result) ($kind arm $($item)?) $body]] $default $($arms)*),
        }
    };
    (@name $biased:literal $count:tt $named:tt []) => {
        $crate::__select!(@wait $biased (::core::option::Option::None) $named
            ::core::unreachable!("it waits without end"))
    };
    (@name $biased:literal $count:tt $named:tt [() $body:expr]) => {
        $crate::__select!(@name $biased $count $named [(::core::time::Duration::ZERO) $body])
    };
    (@name $biased:literal $count:tt $named:tt [($time:expr) $body:expr]) => {
        $crate::__select!(@wait $biased (::core::option::Option::Some($time)) $named $body)
    };
    (@wait $biased:literal $time:tt
        [$([$index:tt $result:tt ($kind:ident $arm:ident $($item:expr)?) $made:expr])*] $body:expr) => {
        match $crate::select_arms([$($crate::Arm::$kind($arm)),*], $biased, $time) {
            selected => $crate::__select!(@make selected ($body)
                $([$index $result ($kind $arm $($item)?) $made])*),
        }
    };

    // The operation is moved before an arm is evaluated, on each path: so the arm may change the handles, or drop them.
    (@make $selected:ident ($none:expr)) => {{
        ::core::mem::drop($selected);
        $none
    }};
    (@make $selected:ident $none:tt [($index:expr) ($result:pat) $call:tt $body:expr] $($others:tt)*) => {
        if $selected.as_ref().is_some_and(|operation| operation.index() == $index) {
            let $result = $crate::__select!(@complete $selected $call);
            $body
        } else {
            $crate::__select!(@make $selected $none $($others)*)
        }
    };
    (@complete $selected:ident ($call:ident $arm:ident $($item:expr)?)) => {
        $selected.unwrap().$call($arm $(, $item)?)
    };
}
