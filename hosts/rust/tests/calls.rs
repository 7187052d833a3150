//! Calls on small inputs, and what is told of them.
use jirrambeo::{
    Accepted, BlockId, Cause, CheckFault, Effect, FormatRule, FunctionName, IdentifierId,
    InstructionId, Order, Refusal, brief, certify, check, explain, infer, lint, made, run, verify,
};

/// The component of README.md.
const PANEL: &[u8] = include_bytes!("../../../examples/panel.json");

#[test]
fn an_inference_is_plain_data() {
    let inference = infer(PANEL).expect("the panel is inferred");
    let first = &inference.root().blocks[0];
    let write = Effect::Mutate {
        value: IdentifierId(10),
        assigns_current_property: false,
    };
    assert!(matches!(
        first.effects(InstructionId(0)),
        [Effect::Create { .. }]
    ));
    assert!(
        inference
            .root()
            .blocks
            .iter()
            .any(|block| block.effects(InstructionId(7)).contains(&write))
    );
    let range = inference
        .range(IdentifierId(1))
        .expect("the first object has a range");
    assert_eq!((range.start, range.end), (Order(1), Order(11)));
    assert!(range.contains(Order(10)) && !range.contains(Order(11)));
    assert_eq!(inference.range(IdentifierId(1000)), None);
}

#[test]
fn an_explanation_has_a_path() {
    let explanation =
        explain(PANEL, FunctionName::Root, IdentifierId(8)).expect("8 stands in the root");
    let Cause::Mutated { instruction, path } = explanation.cause else {
        panic!("a mutation reaches 8");
    };
    assert_eq!(instruction, InstructionId(7));
    let identifiers: Vec<u32> = path.iter().map(|step| step.identifier.0).collect();
    assert_eq!(identifiers, [10, 8]);
    assert_eq!(
        explain(PANEL, FunctionName::Root, IdentifierId(999)),
        Err(Refusal::NotHere)
    );
}

/// What `check` says of the panel's certificate with this part for that one, which stands in it.
fn checked_with(part: &str, other: &str) -> Result<Accepted, Refusal> {
    let certificate = certify(PANEL).expect("the panel is inferred").to_string();
    assert!(certificate.contains(part), "{part} in {certificate}");
    check(PANEL, certificate.replacen(part, other, 1).as_bytes())
}

#[test]
fn a_certificate_is_accepted_or_the_first_fault_is_told() {
    let (function, block) = (FunctionName::Root, BlockId(0));
    assert!(PANEL.contains(&b'\n'), "a unit may have newlines");
    assert_eq!(
        checked_with("visits ", "visits "),
        Ok(Accepted { functions: 1 })
    );
    for (part, other, fault) in [
        (
            "0 Create 1 Mutable Other\n",
            "",
            CheckFault::Effects { function, block },
        ),
        ("block 1\n", "block 7\n", CheckFault::Blocks { function }),
        (
            "summary Create 0 Mutable",
            "summary Create 0 Frozen",
            CheckFault::Summary { function },
        ),
        (
            "function root\n",
            "function 0\n",
            CheckFault::Functions { position: 0 },
        ),
    ] {
        assert_eq!(checked_with(part, other), Err(Refusal::Rejected(fault)));
    }
    assert_eq!(
        check(PANEL, b""),
        Err(Refusal::Rejected(CheckFault::Functions { position: 0 }))
    );
}

#[test]
fn a_certificate_that_is_none_is_told_by_its_line() {
    assert_eq!(
        checked_with("block 0\n", "blok 0\n"),
        Err(Refusal::BadLine { number: 3 })
    );
    assert_eq!(
        check(PANEL, b"function root\n\xff\n"),
        Err(Refusal::BadLine { number: 2 })
    );
    assert_eq!(
        check(b"{}\n", b"x").map_err(|refusal| refusal.status()),
        Err(4)
    );
}

/// What `verify` says of the panel's text with this part for that one, which stands in it.
fn verified_with(part: &str, other: &str) -> Result<Accepted, Refusal> {
    let text = brief(PANEL).expect("the panel is inferred").to_string();
    assert!(text.contains(part), "{part} in {text}");
    verify(PANEL, text.replacen(part, other, 1).as_bytes())
}

#[test]
fn a_line_that_differs_is_told_with_the_one_that_follows() {
    let of_forward = brief(PANEL).expect("the panel is inferred").to_string();
    let inferred = infer(PANEL).expect("the panel is inferred").to_string();
    assert_eq!(of_forward, inferred);
    assert_eq!(
        verified_with("function", "function"),
        Ok(Accepted { functions: 1 })
    );
    let lines = inferred.lines().count() as u64;
    let first = Refusal::Differs {
        number: 3,
        follows: Some("0 Create 1 Mutable Other".to_owned()),
    };
    assert_eq!(
        verified_with("0 Create 1 Mutable Other", "0 Create 1 Frozen Other"),
        Err(first)
    );
    let last = |number, follows: Option<&str>| {
        Err(Refusal::Differs {
            number,
            follows: follows.map(str::to_owned),
        })
    };
    assert_eq!(
        verified_with("reports 0\n", "reports 0"),
        last(lines, Some("reports 0"))
    );
    assert_eq!(
        verified_with("reports 0\n", "reports 0\nreport x\n"),
        last(lines + 1, None)
    );
    assert_eq!(
        verified_with("block 0\n", "blok 0\n"),
        Err(Refusal::BadLine { number: 2 })
    );
    assert_eq!(verify(b"", b""), Err(Refusal::NotJson));
}

#[test]
fn a_refusal_tells_its_data() {
    assert_eq!(infer(b""), Err(Refusal::NotJson));
    let missing = Refusal::NotUnit {
        pointer: "/format".to_owned(),
        rule: FormatRule::Missing,
    };
    let told = missing.to_string();
    assert!(
        told.ends_with("unit: refused NotUnit \"/format\" Missing"),
        "{told}"
    );
    assert_eq!(lint(b"{}"), Err(missing));
    assert_eq!(infer(&vec![b' '; 16_777_217]), Err(Refusal::TooLong));
    assert_eq!(made(1, 1001), Err(Refusal::Words));
    assert_eq!(run("", b""), (2, b"refused Words\n".to_vec()));
    assert_eq!(check(b"", b""), Err(Refusal::NotJson));
    assert_eq!(check(PANEL, &vec![b' '; 16_777_216]), Err(Refusal::TooLong));
}
