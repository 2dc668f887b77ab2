//! Texts by `char`: counted, reversed, turned to capitals, Caesar's cipher, palindromes, and words that are sorted letters.
#[macro_use]
mod program;

const TEXT: &str = "Zwölf Boxkämpfer jagen Viktor quer über den großen Sylter Deich — naïve façade, Ελληνικά, кириллица; \
                    A man, a plan, a canal: Panama! Listen, silent, enlist; stale tales steal least. 漢字と仮名 42 ½ €";

fn shifted(c: char, by: u32) -> char {
    let base = match c {
        'a'..='z' => 'a',
        'A'..='Z' => 'A',
        _ => return c,
    };
    char::from_u32((c as u32 - base as u32 + by) % 26 + base as u32).unwrap_or(c)
}

fn is_palindrome(text: &str) -> bool {
    let letters = || text.chars().filter(|c| c.is_alphanumeric()).flat_map(char::to_lowercase);
    let back: Vec<char> = letters().collect();
    letters().eq(back.into_iter().rev())
}

fn signature(word: &str) -> String {
    let mut letters: Vec<char> = word.chars().collect();
    letters.sort_unstable();
    letters.into_iter().collect()
}

fn added(sum: u32, text: &str) -> u32 {
    text.chars().fold(sum, |sum, c| sum.wrapping_mul(31).wrapping_add(c as u32))
}

fn run(rounds: u32) -> u32 {
    let mut sum = 0u32;
    for round in 0..rounds {
        let secret: String = TEXT.chars().map(|c| shifted(c, round % 26)).collect();
        let plain: String = secret.chars().map(|c| shifted(c, 26 - round % 26)).collect();
        sum = added(sum, &secret) ^ u32::from(plain == TEXT);
        let capitals: String = plain.chars().rev().filter(|c| !c.is_ascii_punctuation()).collect();
        sum = added(sum, &capitals.to_ascii_uppercase());
        sum += plain.char_indices().filter(|(at, c)| at % 3 == 0 && c.is_ascii_lowercase()).count() as u32;
        sum ^= plain.split(|c| c == ';' || c == '.').filter(|part| is_palindrome(part)).count() as u32;
        let mut words: Vec<String> = plain.split(|c: char| !c.is_ascii_alphabetic()).map(signature).collect();
        words.sort();
        sum = sum.rotate_left(3) ^ words.windows(2).filter(|two| two[0] == two[1] && !two[0].is_empty()).count() as u32;
        let bytes: Vec<u8> = plain.bytes().map(|byte| byte ^ (round as u8 & 1)).collect();
        sum = added(sum, String::from_utf8(bytes).as_deref().unwrap_or("-"));
    }
    sum
}

program!(run(250));
