//! Each opening reports a library of another version, before any other call of it. These
//! tests are for archives that `tests/bindings.py` makes of `../c/stub.c`: any other call of
//! theirs ends the process. `VAHEPITO_LINKED` is the version that such an archive returns.
use std::fmt::Debug;
use vahepito::OpenError;

/// The version of this crate, as a library returns its own.
fn wanted() -> u32 {
    let numbers = env!("CARGO_PKG_VERSION").split('.');
    numbers.fold(0, |sum, it| sum * 1000 + it.parse::<u32>().unwrap())
}

fn is_refused<T: Debug>(opened: Result<T, OpenError>) {
    let linked = std::env::var("VAHEPITO_LINKED").unwrap().parse().unwrap();
    let wanted = wanted();
    let told = opened.unwrap_err();
    assert_eq!(told, OpenError::OtherLibrary { linked, wanted });
    let text = told.to_string();
    let dotted = |it: u32| format!("{}.{}.{}", it / 1_000_000, it / 1000 % 1000, it % 1000);
    assert!(
        text.contains(&format!("is version {},", dotted(linked))),
        "{text}"
    );
    assert!(
        text.contains(&format!("is for {}", dotted(wanted))),
        "{text}"
    );
    assert_eq!(text.contains("of other sizes"), linked == wanted, "{text}");
}

#[test]
#[ignore = "it is for an archive of another version"]
fn each_opening_tells() {
    is_refused(vahepito::channel::<String>(4));
    is_refused(vahepito::channel::<String>(4097));
    is_refused(vahepito::groups::<String>(4, 2));
    is_refused(vahepito::groups::<String>(4, 0));
    is_refused(vahepito::try_unbounded::<String>());
    // With capacity 0 no call of the library is made.
    drop(vahepito::channel::<String>(0).unwrap());
}
