//! The words of one line of a scenario, taken from the left. An error says how the line should read.

use model::words::grouped;

/// Every line of a scenario by its first word.
const FORMS: [(&str, &str); 23] = [
    ("segment", "NAME NID_C n NID_SP n length n"),
    ("point", "NAME NID_TP n on SEGMENT at n [R n]"),
    ("zone", "on SEGMENT from n to n"),
    ("book", "NAME [SEGMENT ..]"),
    ("journey", "NAME date n seconds n counter n [NID_OPERATIONAL hexadecimal] [NID_ATOTS n]"),
    ("through", "SEGMENT .."),
    ("stop", "POINT [alignment front|middle|rear] [data n] [skipped] [held] [end]"),
    ("passing", "POINT [alignment front|middle|rear] [data n] [end]"),
    ("power", "on|off"),
    ("configured", ""),
    ("fault", ""),
    ("reports", "all|none, or those that stand of etcs no_brake consistent valid train"),
    ("mode", "AD|other"),
    ("lever", "neutral|traction|brake"),
    ("engage", ""),
    ("position", "SEGMENT n|undefined speed n"),
    ("length", "n"),
    ("load", "JOURNEY BOOK"),
    ("skip", "POINT"),
    ("revoke", "POINT"),
    ("traction", "n [trabrrq n] [locobrrq n] [suptb n] [rtbrq n]"),
    ("slippery", "none, or on SEGMENT from n to n [category n] [range n] .."),
    ("bytes", "HEXADECIMAL .."),
];

/// The line without its comment.
pub fn without_comment(line: &str) -> &str {
    line.split('#').next().unwrap_or("").trim()
}

pub struct Words<'a> {
    /// Those left, the next one last.
    left: Vec<&'a str>,
    first: &'a str,
    form: &'static str,
}

impl<'a> Words<'a> {
    /// `None` for an empty line.
    pub fn of(line: &'a str) -> Result<Option<Words<'a>>, String> {
        let mut left: Vec<&str> = without_comment(line).split_whitespace().rev().collect();
        let Some(first) = left.pop() else { return Ok(None) };
        if let Some((_, form)) = FORMS.iter().find(|(word, _)| *word == first) {
            return Ok(Some(Words { left, first, form }));
        }
        if first == "orders" {
            return Err("'orders' is a line for tools/orders alone".into());
        }
        let words: Vec<&str> = FORMS.iter().map(|(word, _)| *word).collect();
        Err(format!("'{first}' begins no line of a scenario; a line begins with one of: {}", words.join(" ")))
    }

    pub fn first(&self) -> &'a str {
        self.first
    }

    /// An error of the line's form.
    fn wrong(&self, what: String) -> String {
        format!("{what}; the line should be: {}", format!("{} {}", self.first, self.form).trim_end())
    }

    pub fn next(&mut self, what: &str) -> Result<&'a str, String> {
        self.left.pop().ok_or_else(|| self.wrong(format!("{what} is missing")))
    }

    pub fn keyword(&mut self, word: &str) -> Result<(), String> {
        let found = self.next(&format!("'{word}'"))?;
        if found == word {
            Ok(())
        } else {
            Err(self.wrong(format!("'{word}' expected, '{found}' found")))
        }
    }

    /// Takes the word if it is the next.
    pub fn takes(&mut self, word: &str) -> bool {
        self.left.pop_if(|next| *next == word).is_some()
    }

    /// A number that the field's bytes can hold, whether or not it is in the field's range.
    pub fn number<T: TryFrom<u64>>(&mut self, what: &str) -> Result<T, String> {
        let word = self.next(&format!("a number for {what}"))?;
        if word.is_empty() || !word.bytes().all(|byte| byte.is_ascii_digit()) {
            return Err(self.wrong(format!("{what}: '{word}' is not a whole number in plain digits")));
        }
        let value = word.parse::<u64>().ok().and_then(|value| T::try_from(value).ok());
        let most = grouped((1 << (8 * size_of::<T>())) - 1);
        value.ok_or_else(|| format!("{what}: {word} is more than the bytes of that field hold, {most}"))
    }

    /// A number of so many bytes in two's complement, with a minus in front where it is below 0.
    pub fn signed<T: TryFrom<i64>>(&mut self, what: &str) -> Result<T, String> {
        let word = self.next(&format!("a number for {what}"))?;
        let digits = word.strip_prefix('-').unwrap_or(word);
        if digits.is_empty() || !digits.bytes().all(|byte| byte.is_ascii_digit()) {
            return Err(self.wrong(format!("{what}: '{word}' is not a whole number in plain digits")));
        }
        let value = word.parse::<i64>().ok().and_then(|value| T::try_from(value).ok());
        let beyond: u64 = 1 << (8 * size_of::<T>() - 1);
        let (least, most) = (grouped(beyond), grouped(beyond - 1));
        value.ok_or_else(|| format!("{what}: {word} is beyond what the bytes of that field hold, -{least} to {most}"))
    }

    /// The number behind the keyword if that is the next word, else 0.
    pub fn optional<T: TryFrom<u64> + Default>(&mut self, word: &str) -> Result<T, String> {
        if self.takes(word) {
            self.number(word)
        } else {
            Ok(T::default())
        }
    }

    /// A keyword with its number.
    pub fn value<T: TryFrom<u64>>(&mut self, word: &str) -> Result<T, String> {
        self.keyword(word)?;
        self.number(word)
    }

    /// The place of the next word among the choices.
    pub fn choice(&mut self, choices: &[&str]) -> Result<u8, String> {
        let word = self.next(&choices.join(" or "))?;
        let at = choices.iter().position(|choice| *choice == word);
        at.map(|k| k as u8).ok_or_else(|| self.wrong(format!("'{word}' is none of: {}", choices.join(" "))))
    }

    pub fn is_empty(&self) -> bool {
        self.left.is_empty()
    }

    pub fn rest(&mut self) -> Vec<String> {
        self.left.drain(..).rev().map(String::from).collect()
    }

    pub fn end(&self) -> Result<(), String> {
        self.left.last().map_or(Ok(()), |word| Err(self.wrong(format!("'{word}' is not expected here"))))
    }
}
