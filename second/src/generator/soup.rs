//! Text soup: fragments of commands in any order.

use super::random::Random;
use crate::terms::{Edition, Terms};

const FRAGMENTS: &[&str] = &[
    "G01*", "G02*", "G03*", "G04*", "G36*", "G37*", "G75*", "G04 a*", "M02*", "M02", "D10*",
    "D11*", "D01*", "D02*", "D03*", "X0Y0D02*", "X1Y1D01*", "X2I1J0D01*", "Y1D03*", "X", "Y", "I",
    "J", "D", "0", "1", "10", "000", "999999", "-", "+", ".", "*", "%", "%", "*%", "%*", ",", "$",
    "$1", "=", "(", ")", "x", "/", "\n", "\r\n", " ", "%FSLAX36Y36*%", "%MOMM*%", "%MOIN*%",
    "%ADD10C,1*%", "%ADD11R,1X1*%", "%ADD12P,1X5X0X1*%", "%AMM*1,1,1,0,0*%",
    "%AMN*$1=$2x2*21,1,$1,1,0,0,0*%", "%ADD13M*%", "%ADD14N,1X2*%", "%ABD15*%", "%AB*%",
    "%SRX2Y2I1J1*%", "%SR*%", "%LPC*%", "%LPD*%", "%LMX*%", "%LMY*%", "%LMXY*%", "%LMN*%",
    "%LR90*%", "%LR45*%", "%LS2*%", "%LS1*%", "%TFa*%", "%TF.b,c*%", "%TAa,1*%", "%TOb,2*%",
    "%TD*%", "%TDa*%", "%AM", "%AD", "%TF", "FSLAX", "LP", "D15*", "D13*", "\x7f", "\x01",
];

const HEADS: &[&str] = &[
    "",
    "%FSLAX36Y36*%%MOMM*%",
    "%FSLAX36Y36*%\n%MOMM*%\n%ADD10C,1*%\nD10*\nG01*\nX0Y0D02*\n",
    "%MOIN*%%FSLAX16Y16*%%ADD10C,0*%%ADD11R,1X1*%D11*G75*G03*X0Y0D02*G36*",
];

const OLD_FRAGMENTS: &[&str] = &[
    "G1*", "G2*", "G3*", "G4*", "G54D10*", "G54D11*", "G70*", "G71*", "G74*", "G90*", "G91*",
    "M0*", "M01*", "M2*", "G1X1Y1D1*", "G36X0Y0D2*", "G37D2*", "X1Y0I1J1D1*", "X1Y1I1J0D1*", "D1*",
    "D2*", "D3*", "G03X1Y1I0J1D01*", "%FSTIX23Y23*%", "%FSLAX24Y24*%", "%IPPOS*%", "%LNa*%",
    "%SMA0*%", "G5", "%FSLAX77Y77*%", "G54", "M0", "G",
];

pub fn whole(mut random: Random, terms: Terms) -> Vec<u8> {
    let is_old = terms.edition == Edition::Old;
    let mut text = String::from(random.pick(HEADS));
    // Whole commands alone now and then, so that some of the soup goes down.
    let whole_commands = random.percent(50);
    for _ in 0..random.below(14) {
        let fragments = if is_old && random.percent(40) { OLD_FRAGMENTS } else { FRAGMENTS };
        let fragment = random.pick(fragments);
        if !whole_commands || (fragment.len() > 3 && fragment.ends_with(['*', '%'])) {
            text += fragment;
        }
    }
    if random.percent(70) {
        text += "M02*";
    }
    text.into_bytes()
}
