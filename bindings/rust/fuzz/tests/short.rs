//! A short run, the same at every time.

#[test]
fn twenty_thousand_calls() {
    let report = fuzz::run(20_000, 1).unwrap_or_else(|what| panic!("{what}"));
    assert_eq!(report.calls(), 20_000);
}
