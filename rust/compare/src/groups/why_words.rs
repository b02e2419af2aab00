//! The words that the program `why` is started with: only the number of a rule has it write anything.

use crate::bench::Run;
use crate::groups::why_input::{asked, input, worked};
use crate::process::Feed;
use crate::trials::{Stand, Trials};

/// Words that are no number from 0 to 4,294,967,295 as the files write it.
const NO_NUMBERS: [&str; 31] = [
    "",
    " ",
    "-",
    "+",
    "-0",
    "-1",
    "+0",
    "00",
    "01",
    "007",
    " 0",
    "0 ",
    "0\t",
    "\t0",
    "0\n",
    "0\r",
    "0x0",
    "0.0",
    "1,000",
    "1e3",
    "a",
    "0a",
    "a0",
    "rule",
    "rule 0",
    "9999999999",
    "4294967296",
    "4294967297",
    "8589934592",
    "18446744073709551616",
    "\u{663}",
];

/// Two words or more, and none.
const NOT_ONE: [&[&str]; 9] =
    [&[], &["0", "0"], &["0", ""], &["", "0"], &["0", "1"], &["0", "rules.txt"], &["--", "0"], &["0", "x"], &["0"; 9]];

pub fn run(trials: &mut Trials) -> Run {
    trials.group("one word that is no number, no word, or several: nothing is written", wrong_words)?;
    trials.group("numbers about every power of ten, and the largest", numbers)
}

fn wrong_words(trials: &mut Trials) -> Run {
    for word in NO_NUMBERS {
        expect_nothing(trials, &[word])?;
    }
    for word in ["0".repeat(1_000), "4".repeat(1_000), "0".repeat(10) + "1", "9".repeat(11), "9".repeat(20)] {
        expect_nothing(trials, &[word])?;
    }
    expect_nothing(trials, &[[0xFF, b'0'], [b'0', 0x80]])?;
    expect_nothing(trials, &[[b'0', 0x80]])?;
    for words in NOT_ONE {
        expect_nothing(trials, words)?;
    }
    Ok(())
}

/// Nothing is written, and no input is waited for, whatever file there is.
fn expect_nothing(trials: &mut Trials, words: &[impl AsRef<[u8]>]) -> Run {
    for rules in [worked(), Vec::new()] {
        let stand = Stand::of(rules, "").asked(words);
        let wrote = trials.compare("wrong words", &stand, &input(), Feed::File)?;
        assert_eq!(wrote, b"", "the oracle: wrong words");
    }
    trials.ends_alone("wrong words", &Stand::of(worked(), "").asked(words))
}

fn numbers(trials: &mut Trials) -> Run {
    let tens = (0..10).flat_map(|digits| [10_u32.pow(digits) - 1, 10_u32.pow(digits)]);
    for number in tens.chain([4_294_967_289, 4_294_967_290, 4_294_967_294, u32::MAX]) {
        trials.compare(&format!("rule {number}"), &asked(worked(), number), &input(), Feed::File)?;
    }
    Ok(())
}
