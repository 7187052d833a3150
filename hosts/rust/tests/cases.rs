//! Does runs of the program again in this process: `JIRRAMBEO_CASES` names a file of them, which hosts/cases.py writes.
use jirrambeo::{
    FunctionId, FunctionName, IdentifierId, Refusal, brief, certify, check, explain,
    explain_function, infer, lint, made, plain, run, verify,
};
use std::str::{self, FromStr};
use std::{env, fs, thread};

struct Case {
    words: String,
    input: Vec<u8>,
    status: u8,
    text: String,
}

/// The number at the front of four bytes and more, which it takes.
fn number(bytes: &mut &[u8]) -> usize {
    let (front, rest) = bytes.split_first_chunk::<4>().expect("a number");
    *bytes = rest;
    u32::from_le_bytes(*front) as usize
}

fn part(bytes: &mut &[u8], length: usize) -> Vec<u8> {
    let (front, rest) = bytes.split_at(length);
    *bytes = rest;
    front.to_vec()
}

fn cases() -> Vec<Case> {
    let path = env::var_os("JIRRAMBEO_CASES").expect("JIRRAMBEO_CASES: see hosts/README.md");
    let file = fs::read(path).expect("the file of the cases");
    let (mut rest, mut cases) = (file.as_slice(), Vec::new());
    while !rest.is_empty() {
        let [status, words, input, text] = [(); 4].map(|()| number(&mut rest));
        cases.push(Case {
            status: u8::try_from(status).expect("a status"),
            words: String::from_utf8(part(&mut rest, words)).expect("words"),
            input: part(&mut rest, input),
            text: String::from_utf8(part(&mut rest, text)).expect("a text"),
        });
    }
    cases
}

fn text_of<T: ToString>(answer: Result<T, Refusal>) -> Result<String, Refusal> {
    answer.map(|found| found.to_string())
}

/// The number that a word spells, where a call that has the number spells it so too.
fn number_of<T: FromStr + ToString>(word: &str) -> Option<T> {
    let number: T = word.parse().ok()?;
    (number.to_string() == word).then_some(number)
}

fn function_named(word: &str) -> Option<FunctionName> {
    match word {
        "root" => Some(FunctionName::Root),
        word => number_of(word).map(|id| FunctionId(id).into()),
    }
}

/// The text of what the case's call answers, printed back; none where the words aren't those of a call.
fn printed_back(case: &Case) -> Option<Result<String, Refusal>> {
    let words: Vec<&str> = case.words.split(' ').collect();
    Some(match words[..] {
        ["infer"] => text_of(infer(&case.input)),
        ["certify"] => text_of(certify(&case.input)),
        ["brief"] => text_of(brief(&case.input)),
        ["lint"] => text_of(lint(&case.input)),
        ["plain"] => text_of(plain(&case.input)),
        ["check"] => {
            let cut = case.input.iter().position(|byte| *byte == b'\n')?;
            text_of(check(&case.input[..cut], &case.input[cut + 1..]))
        }
        ["verify"] => {
            let cut = case.input.iter().position(|byte| *byte == b'\n')?;
            text_of(verify(&case.input[..cut], &case.input[cut + 1..]))
        }
        ["explain", function, identifier] => {
            let identifier = IdentifierId(number_of(identifier)?);
            text_of(explain(&case.input, function_named(function)?, identifier))
        }
        ["explain", function] => {
            text_of(explain_function(&case.input, function_named(function)?))
        }
        ["made", seed, size] => text_of(made(number_of(seed)?, number_of(size)?)),
        _ => return None,
    })
}

#[test]
fn the_text_of_each_run_is_the_program_s() {
    for case in cases() {
        let (status, text) = run(&case.words, &case.input);
        assert_eq!(
            (status, str::from_utf8(&text)),
            (case.status, Ok(case.text.as_str())),
            "{}",
            case.words
        );
    }
}

#[test]
fn what_a_call_answers_prints_back_as_its_text() {
    let mut tried = 0;
    for case in cases() {
        let Some(answer) = printed_back(&case) else {
            continue;
        };
        tried += 1;
        match answer {
            Ok(text) => assert_eq!((0, text), (case.status, case.text), "{}", case.words),
            Err(refusal) => assert_eq!(
                (refusal.status(), refusal.line()),
                (case.status, case.text),
                "{}",
                case.words
            ),
        }
    }
    assert!(tried > 200);
}

#[test]
fn what_certify_writes_is_accepted() {
    for case in cases() {
        if case.words == "certify" && case.status == 0 {
            let certificate = certify(&case.input).expect("a certificate");
            let accepted = check(&case.input, certificate.to_string().as_bytes())
                .expect("what certify writes is accepted");
            assert_eq!(accepted.functions, certificate.functions.len() as u64);
        }
    }
}

#[test]
fn calls_side_by_side_have_the_same_answers() {
    let cases = cases();
    let short = || cases.iter().filter(|case| case.input.len() < 1 << 16);
    thread::scope(|scope| {
        for _ in 0..4 {
            scope.spawn(|| {
                for case in (0..5).flat_map(|_| short()) {
                    let answer = run(&case.words, &case.input);
                    assert_eq!(
                        answer,
                        (case.status, case.text.clone().into_bytes()),
                        "{}",
                        case.words
                    );
                }
            });
        }
    });
}
