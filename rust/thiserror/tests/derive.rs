use thiserror::Error;

#[derive(Debug, Error)]
enum Refused {
    #[error("nothing")]
    Nothing,
    #[error("code {0:?}")]
    Code(Option<u8>),
    #[error("expected={expected} provided={provided}")]
    Count { expected: usize, provided: usize },
}

#[test]
fn texts_name_their_fields() {
    let texts = [
        Refused::Nothing,
        Refused::Code(Some(6)),
        Refused::Count {
            expected: 2,
            provided: 1,
        },
    ]
    .map(|refused| Box::<dyn std::error::Error>::from(refused).to_string());
    assert_eq!(texts, ["nothing", "code Some(6)", "expected=2 provided=1"]);
}
