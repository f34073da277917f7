//! The 8B/10B code by the logic equations that its authors published (Widmer and Franaszek, 1983), and by nothing else: it shares no
//! table and no line with the library.

/// The bits of a character by the authors' letters: A is the lowest bit of the byte, H the highest, K is set in a special character.
struct Letters {
    a: bool,
    b: bool,
    c: bool,
    d: bool,
    e: bool,
    f: bool,
    g: bool,
    h: bool,
    k: bool,
}

/// The disparity is false for negative and true for positive. Gives the ten bits, bit a lowest, and the disparity after.
pub fn encode(byte: u8, k: bool, disparity: bool) -> (u16, bool) {
    let bit = |n: u32| byte >> n & 1 == 1;
    let v = Letters { a: bit(0), b: bit(1), c: bit(2), d: bit(3), e: bit(4), f: bit(5), g: bit(6), h: bit(7), k };
    let Letters { a, b, c, d, e, f, g, h, k } = v;

    // How many of A, B, C, D are set: L22 for two and two, and so on.
    let set = a as u8 + b as u8 + c as u8 + d as u8;
    let (l40, l31, l22, l13, l04) = (set == 4, set == 3, set == 2, set == 1, set == 0);
    let x24 = e && d && !c && !b && !a;
    let x28 = e && d && c && !b && !a;

    // The six bits before complementing.
    let six = [
        a,
        b && !l40 || l04,
        l04 || c || x24,
        d && !(a && b && c),
        (e || l13) && !x24,
        l22 && !e || e && !d && !c && !(a && b) || e && l40 || k && x28 || e && !d && c && !b && !a,
    ];
    // They belong to positive entering disparity, or to negative; to neither if the block serves both.
    let six_of_positive = x24 || !e && !l22 && !l31;
    let six_of_negative = k || e && !l22 && !l13 || !e && !d && c && b && a;
    let six_turns = six_of_positive || k || e && !l22 && !l13;
    let six_inverted = if disparity { six_of_negative } else { six_of_positive };
    let between = disparity != six_turns;

    // The four bits before complementing; S asks for the alternate form of .7.
    let s = if disparity { !e && d && l31 } else { e && !d && l13 };
    let alternate = f && g && h && (k || s);
    let four = [f && !alternate, g || !f && !g && !h, h, !h && (g != f) || alternate];
    let four_of_negative = f && g;
    let four_of_positive = !f && !g || k && (f != g);
    let four_turns = !f && !g || f && g && h;
    let four_inverted = if between { four_of_negative } else { four_of_positive };

    let bits = six.iter().map(|x| x != &six_inverted).chain(four.iter().map(|x| x != &four_inverted));
    let symbol = bits.enumerate().fold(0, |sum, (n, set)| sum | (set as u16) << n);
    (symbol, between != four_turns)
}

/// A character's name, its byte, and whether it is special.
pub fn characters() -> Vec<(String, u8, bool)> {
    let mut all: Vec<_> = (0..=255).map(|b: u8| (format!("{b:02x}"), b, false)).collect();
    for (x, y) in [(28, 0), (28, 1), (28, 2), (28, 3), (28, 4), (28, 5), (28, 6), (28, 7), (23, 7), (27, 7), (29, 7), (30, 7)] {
        all.push((format!("K{x}.{y}"), y << 5 | x, true));
    }
    all
}
