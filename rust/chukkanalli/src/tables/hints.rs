//! What a word tells of the cause, where it is no number; behind the sentence that says so.

const WHOLE: &str = ": how many of the D parts of its set go to the action; `chukkanalli f64` takes decimals";
const BLANKS: &str = "; between numbers stand blanks, not commas or semicolons";
const COMMENT: &str = "; a comment begins with #";

/// A hint on a word that is no part.
pub fn of_part(word: &str) -> &'static str {
    if is_comment(word) {
        COMMENT
    } else if is_list(word) {
        BLANKS
    } else if is_share(word) {
        WHOLE
    } else {
        ""
    }
}

/// A hint on a word that is no decimal number.
pub fn of_decimal(word: &str) -> &'static str {
    let (point, quotient) = ("; a decimal number has a point, as 0.5", "; write it as a decimal number, as 0.5");
    if is_comment(word) {
        COMMENT
    } else if let Some((whole, fraction)) = word.split_once(',').filter(|(_, behind)| !behind.is_empty()) {
        if is_number(whole) && fraction.bytes().all(|byte| byte.is_ascii_digit()) {
            point
        } else {
            BLANKS
        }
    } else if is_list(word) {
        BLANKS
    } else if is_share(word) {
        quotient
    } else {
        ""
    }
}

fn is_comment(word: &str) -> bool {
    word.contains("//")
}

/// Numbers with commas or semicolons between or behind them.
fn is_list(word: &str) -> bool {
    word.contains([',', ';']) && word.split([',', ';']).all(|piece| piece.is_empty() || is_number(piece))
}

/// A decimal number, a quotient or a percentage.
fn is_share(word: &str) -> bool {
    let quotient = word.split_once('/').is_some_and(|(over, under)| is_number(over) && is_number(under));
    quotient || word.strip_suffix('%').is_some_and(is_number) || is_number(word)
}

/// Digits, with at most one point among them and at most one exponent behind.
fn is_number(word: &str) -> bool {
    word.starts_with(|c: char| c.is_ascii_digit() || c == '.') && word.parse::<f64>().is_ok()
}

#[cfg(test)]
mod tests {
    use super::*;

    #[test]
    fn hints_stand_where_the_cause_can_be_seen() {
        for word in ["0.5", ".5", "12.0", "1/3", "50%", "1e0"] {
            assert_eq!(of_part(word), WHOLE, "{word}");
        }
        for word in ["1,0", "1;0", "1,", ",1", "1,0,2"] {
            assert_eq!(of_part(word), BLANKS, "{word}");
        }
        for word in ["//", "//PASS", "0//"] {
            assert_eq!((of_part(word), of_decimal(word)), (COMMENT, COMMENT), "{word}");
        }
        for word in ["x", "-", "1x", "a/b", "%", "-0.5", "½", "1,x"] {
            assert_eq!(of_part(word), "", "{word}");
        }
        assert_eq!(of_decimal("0,5"), "; a decimal number has a point, as 0.5");
        assert_eq!(["0.5,0.5", "0.5,", "1;0"].map(of_decimal), [BLANKS; 3]);
        assert_eq!(of_decimal("1/3"), "; write it as a decimal number, as 0.5");
        assert_eq!(of_decimal("50%"), "; write it as a decimal number, as 0.5");
        assert_eq!(of_decimal("x"), "");
    }
}
