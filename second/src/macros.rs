//! Macros: document 01, "Macros". AM checks the form, AD works the blocks out.

use crate::number::{all_digits, is_name, rounded_quotient, unsigned_decimal, whole, Number, ONE};
use crate::scan::is_line_end;

/// "`$n=` expression with n 1 to 64".
pub const VARIABLES: usize = 64;

/// "parentheses to depth 16 (deeper is 15)".
const DEEPEST: usize = 16;

/// "any operation's result of 10^12 millionths or more in size" is 9.
const RESULT_LIMIT: i128 = 1_000_000_000_000;

/// A macro whose form is good, and what else AM finds in it.
#[derive(Clone, PartialEq, Eq, Debug)]
pub struct Macro {
    pub name: Vec<u8>,
    pub blocks: Vec<Block>,
    /// 5 somewhere in it.
    pub has_number_out_of_range: bool,
    /// How many of its numbers were rounded.
    pub rounded: u64,
    /// 15 somewhere in it.
    pub is_too_deep: bool,
}

#[derive(Clone, PartialEq, Eq, Debug)]
pub enum Block {
    Comment,
    /// `$n=` expression; n counts from 0 here.
    Assignment {
        variable: usize,
        expression: Vec<u8>,
    },
    /// A code, then expressions, each after a comma.
    Primitive(Vec<u8>),
}

/// What the form of a block may show besides: 5 and 15, of which the lowest of the whole command
/// decides (decision 58).
#[derive(Clone, Copy, Default)]
struct Findings {
    out_of_range: bool,
    rounded: u64,
    too_deep: bool,
}

// ---------------------------------------------------------------- the form

/// The text between the two `%`, from `AM` on. The CR and LF that are left in it are permitted
/// ones and are skipped.
pub fn parse(text: &[u8]) -> Option<Macro> {
    let text: Vec<u8> = text.iter().copied().filter(|byte| !is_line_end(*byte)).collect();
    let mut parts = text.strip_suffix(b"*")?.split(|byte| *byte == b'*');
    let name = parts.next()?.strip_prefix(b"AM")?;
    if !is_name(name) {
        return None;
    }
    let mut findings = Findings::default();
    let mut blocks = Vec::new();
    for part in parts {
        blocks.push(block(part, &mut findings)?);
    }
    // "One block at least".
    if blocks.is_empty() {
        return None;
    }
    Some(Macro {
        name: name.to_vec(),
        blocks,
        has_number_out_of_range: findings.out_of_range,
        rounded: findings.rounded,
        is_too_deep: findings.too_deep,
    })
}

fn block(text: &[u8], findings: &mut Findings) -> Option<Block> {
    match text.first()? {
        // "a comment (first byte 0)" (decision 61).
        b'0' => Some(Block::Comment),
        b'$' => assignment(text, findings),
        _ => primitive(text, findings),
    }
}

fn assignment(text: &[u8], findings: &mut Findings) -> Option<Block> {
    let equals = text.iter().position(|byte| *byte == b'=')?;
    let number = whole(&text[1..equals])?;
    let expression = &text[equals + 1..];
    findings.out_of_range |= !is_variable(number);
    check_expression(expression, findings)?;
    let variable = if is_variable(number) { number as usize - 1 } else { 0 };
    Some(Block::Assignment { variable, expression: expression.to_vec() })
}

/// "a primitive is a code of digits, then expressions, each after a comma"; the code may have any
/// length and there may be no expression at all (decision 63).
fn primitive(text: &[u8], findings: &mut Findings) -> Option<Block> {
    let mut parts = text.split(|byte| *byte == b',');
    let code = parts.next()?;
    if !all_digits(code) {
        return None;
    }
    for part in parts {
        check_expression(part, findings)?;
    }
    Some(Block::Primitive(text.to_vec()))
}

fn is_variable(number: u64) -> bool {
    (1..=VARIABLES as u64).contains(&number)
}

/// What may follow in an expression.
#[derive(Clone, Copy, PartialEq, Eq)]
enum Expecting {
    /// The start of an expression: a sign or a factor (decision 65).
    SignOrFactor,
    Factor,
    /// An operator, a closing parenthesis or the end.
    Operator,
}

/// The form of an expression, from the left, with the number of parentheses open at once
/// (decision 68).
fn check_expression(text: &[u8], findings: &mut Findings) -> Option<()> {
    let mut expecting = Expecting::SignOrFactor;
    let mut depth = 0;
    let mut at = 0;
    while at < text.len() {
        match (expecting, text[at]) {
            (Expecting::SignOrFactor, b'+' | b'-') => {
                expecting = Expecting::Factor;
                at += 1;
            }
            (Expecting::Operator, b'+' | b'-' | b'x' | b'/') => {
                expecting = Expecting::Factor;
                at += 1;
            }
            (Expecting::Operator, b')') if depth > 0 => {
                depth -= 1;
                at += 1;
            }
            (Expecting::Operator, _) => return None,
            (_, b'(') => {
                depth += 1;
                findings.too_deep |= depth > DEEPEST;
                expecting = Expecting::SignOrFactor;
                at += 1;
            }
            (_, b'$') => {
                let digits = run_of_digits(&text[at + 1..]);
                findings.out_of_range |= !is_variable(whole(digits)?);
                expecting = Expecting::Operator;
                at += 1 + digits.len();
            }
            (_, _) => {
                let number = run_of_number(&text[at..]);
                let value = unsigned_decimal(number)?;
                findings.out_of_range |= value.is_out_of_range();
                findings.rounded += u64::from(value.is_rounded());
                expecting = Expecting::Operator;
                at += number.len();
            }
        }
    }
    (expecting == Expecting::Operator && depth == 0).then_some(())
}

fn run_of_digits(text: &[u8]) -> &[u8] {
    let length = text.iter().take_while(|byte| byte.is_ascii_digit()).count();
    &text[..length]
}

fn run_of_number(text: &[u8]) -> &[u8] {
    let is_part = |byte: &&u8| byte.is_ascii_digit() || **byte == b'.';
    let length = text.iter().take_while(is_part).count();
    &text[..length]
}

// ---------------------------------------------------------------- working out

/// The numbers an AD keeps of a macro: for each primitive its code, plain, and its parameters in
/// millionths (decision 77). Or 9 or 10: the first block at fault decides, in it 9 before 10.
pub fn work_out(definition: &Macro, parameters: &[i64]) -> Result<Vec<Vec<i64>>, u32> {
    // "A variable never set is 0".
    let mut variables = [0; VARIABLES];
    variables[..parameters.len()].copy_from_slice(parameters);
    let mut kept = Vec::new();
    for block in &definition.blocks {
        match block {
            Block::Comment => {}
            Block::Assignment { variable, expression } => {
                variables[*variable] = evaluate(expression, &variables)?;
            }
            Block::Primitive(text) => {
                // All its expressions are worked out before its rule is looked at (decision 59).
                let mut parts = text.split(|byte| *byte == b',');
                let code = parts.next().unwrap_or_default();
                let mut values = Vec::new();
                for part in parts {
                    values.push(evaluate(part, &variables)?);
                }
                let code = keeps_its_rule(code, &values).ok_or(10u32)?;
                kept.push([vec![code], values].concat());
            }
        }
    }
    Ok(kept)
}

/// The value of an expression, or 9.
pub fn evaluate(text: &[u8], variables: &[i64; VARIABLES]) -> Result<i64, u32> {
    let mut evaluator = Evaluator { text, at: 0, variables };
    evaluator.expression()
}

/// "An expression may hold a term, a term a factor, a factor an expression in parentheses." The
/// form has been checked.
struct Evaluator<'a> {
    text: &'a [u8],
    at: usize,
    variables: &'a [i64; VARIABLES],
}

impl Evaluator<'_> {
    fn take(&mut self, choices: &[u8]) -> Option<u8> {
        let byte = *self.text.get(self.at)?;
        if !choices.contains(&byte) {
            return None;
        }
        self.at += 1;
        Some(byte)
    }

    /// "one optional leading sign (on the first term ...)"; equal ranks from the left.
    fn expression(&mut self) -> Result<i64, u32> {
        let negative = self.take(b"+-") == Some(b'-');
        let mut value = self.term()?;
        if negative {
            value = -value;
        }
        while let Some(operator) = self.take(b"+-") {
            let right = self.term()?;
            let right = if operator == b'-' { -right } else { right };
            value = result(i128::from(value) + i128::from(right))?;
        }
        Ok(value)
    }

    /// "Products and quotients are rounded once each to the nearest millionth, halves away from
    /// zero".
    fn term(&mut self) -> Result<i64, u32> {
        let mut value = self.factor()?;
        while let Some(operator) = self.take(b"x/") {
            let left = i128::from(value);
            let right = i128::from(self.factor()?);
            value = if operator == b'x' {
                result(rounded_quotient(left * right, i128::from(ONE)))?
            } else if right == 0 {
                return Err(9);
            } else {
                result(rounded_quotient(left * i128::from(ONE), right))?
            };
        }
        Ok(value)
    }

    fn factor(&mut self) -> Result<i64, u32> {
        if self.take(b"(").is_some() {
            let value = self.expression()?;
            self.take(b")");
            return Ok(value);
        }
        if self.take(b"$").is_some() {
            let digits = run_of_digits(&self.text[self.at..]);
            self.at += digits.len();
            let number = whole(digits).expect("the form was checked");
            return Ok(self.variables[number as usize - 1]);
        }
        let number = run_of_number(&self.text[self.at..]);
        self.at += number.len();
        Ok(unsigned_decimal(number).map_or(0, Number::value))
    }
}

/// The result of an operation, rounded: 10^12 or more in size is 9 (decision 69).
fn result(value: i128) -> Result<i64, u32> {
    if value.abs() >= RESULT_LIMIT {
        return Err(9);
    }
    Ok(value as i64)
}

// ---------------------------------------------------------------- the primitives' rules

/// The code as a plain number if the primitive keeps its rule, else nothing: 10.
fn keeps_its_rule(code: &[u8], values: &[i64]) -> Option<i64> {
    let (code, kept) = match code {
        b"1" => (1, circle(values)),
        b"20" => (20, vector_line(values)),
        b"21" => (21, center_line(values)),
        b"4" => (4, outline(values)),
        b"5" => (5, polygon(values)),
        b"7" => (7, thermal(values)),
        _ => return None,
    };
    kept.then_some(code)
}

/// "Exposure is 0 or 1", judged on the value (decision 73).
fn is_exposure(value: i64) -> bool {
    value == 0 || value == ONE
}

/// A whole number between the two, ends included.
pub fn is_whole_between(value: i64, least: i64, greatest: i64) -> bool {
    value % ONE == 0 && (least * ONE..=greatest * ONE).contains(&value)
}

fn circle(values: &[i64]) -> bool {
    match values {
        [exposure, diameter, _, _] | [exposure, diameter, _, _, _] => {
            is_exposure(*exposure) && *diameter >= 0
        }
        _ => false,
    }
}

fn vector_line(values: &[i64]) -> bool {
    matches!(values, [exposure, width, _, _, _, _, _] if is_exposure(*exposure) && *width >= 0)
}

fn center_line(values: &[i64]) -> bool {
    match values {
        [exposure, width, height, _, _, _] => is_exposure(*exposure) && *width >= 0 && *height >= 0,
        _ => false,
    }
}

/// "4, 5+2n with n whole, 1 to 5000 and last point equal to first" (decision 74).
fn outline(values: &[i64]) -> bool {
    let [exposure, n, points @ .., _rotation] = values else {
        return false;
    };
    if !is_exposure(*exposure) || !is_whole_between(*n, 1, 5000) {
        return false;
    }
    // The first point and n further ones.
    let n = (*n / ONE) as usize;
    points.len() == 2 + 2 * n && points[..2] == points[2 * n..]
}

fn polygon(values: &[i64]) -> bool {
    match values {
        [exposure, vertices, _, _, diameter, _] => {
            is_exposure(*exposure) && is_whole_between(*vertices, 3, 12) && *diameter >= 0
        }
        _ => false,
    }
}

/// "thermal outer above inner, inner at least 0, gap at least 0 and twice the gap's square below
/// the outer's".
fn thermal(values: &[i64]) -> bool {
    let [_, _, outer, inner, gap, _] = values else {
        return false;
    };
    let square = |value: i64| i128::from(value) * i128::from(value);
    outer > inner && *inner >= 0 && *gap >= 0 && 2 * square(*gap) < square(*outer)
}

#[cfg(test)]
mod tests {
    use super::*;

    fn value(text: &str) -> Result<i64, u32> {
        let mut findings = Findings::default();
        check_expression(text.as_bytes(), &mut findings).expect("of its form");
        evaluate(text.as_bytes(), &[0; VARIABLES])
    }

    /// P1 to P5 of document 01.
    #[test]
    fn either_side_of_a_rounding() {
        assert_eq!(value("1/3"), Ok(333_333));
        assert_eq!(value("2/3"), Ok(666_667));
        assert_eq!(value("-2/3"), Ok(-666_667));
        assert_eq!(value("0.0005x0.001"), Ok(1));
        assert_eq!(value("0.0005x0.000998"), Ok(0));
    }

    #[test]
    fn ranks_signs_and_limits() {
        assert_eq!(value("1-2-3"), Ok(-4 * ONE));
        assert_eq!(value("8/4/2"), Ok(ONE));
        assert_eq!(value("2+3x4"), Ok(14 * ONE));
        assert_eq!(value("-(-2+3)x4"), Ok(-4 * ONE));
        assert_eq!(value("999999.999999+0.000001"), Err(9));
        assert_eq!(value("-999999.999999-0.000001"), Err(9));
        assert_eq!(value("999999.999999+0"), Ok(999_999_999_999));
        assert_eq!(value("1/(0.0005x0.000998)"), Err(9));
        assert_eq!(value("$64"), Ok(0));
    }

    #[test]
    fn expressions_out_of_form() {
        let bad = [
            "", "+", "2x-3", "2+-3", "--3", "(1", "1)", "()", "1 +2", "2X3", "1.2.3", ".", "$",
            "$x", "1$1", "(1)(2)", "1(", "2x", "a",
        ];
        for text in bad {
            assert!(
                check_expression(text.as_bytes(), &mut Findings::default()).is_none(),
                "{text}"
            );
        }
    }

    #[test]
    fn sixteen_parentheses_are_not_too_deep() {
        for depth in [16, 17] {
            let text = "(".repeat(depth) + "1" + &")".repeat(depth);
            let mut findings = Findings::default();
            assert!(check_expression(text.as_bytes(), &mut findings).is_some());
            assert_eq!(findings.too_deep, depth == 17);
        }
    }

    /// P8 and P9 of document 01.
    #[test]
    fn thermal_gaps() {
        assert!(thermal(&[0, 0, ONE, 0, 707_106, 0]));
        assert!(!thermal(&[0, 0, ONE, 0, 707_107, 0]));
    }
}
