//! Files of words as hardware tools read them with `$readmemh`: hexadecimal words parted by blanks,
//! comments, and `@` with the number of the next word.

use crate::words::{has_byte_order_mark, is_blank, shown, BYTE_ORDER_MARK};

/// A table as a file has it: how many words, of how many digits.
#[derive(Clone, Copy)]
pub struct Form {
    pub table: &'static str,
    pub words: usize,
    pub digits: usize,
}

/// The words of a file, each of which must be given once. An error names the line.
pub fn words(name: &str, data: &[u8], form: Form) -> Result<Vec<u64>, String> {
    let mut reader = Reader {
        data,
        at: 0,
        line: 1,
    };
    let mut words = Words::new(form);
    let read = match has_byte_order_mark(data) {
        true => Err(BYTE_ORDER_MARK.to_string()),
        false => words.read(&mut reader),
    };
    read.map_err(|what| format!("{name}:{}: {what}", reader.line))?;
    Ok(words.values)
}

/// Where in the file the reader stands.
struct Reader<'a> {
    data: &'a [u8],
    at: usize,
    line: usize,
}

impl<'a> Reader<'a> {
    /// The next word or address, if there is one.
    fn next(&mut self) -> Result<Option<&'a [u8]>, String> {
        while let Some(&byte) = self.data.get(self.at) {
            let rest = &self.data[self.at..];
            if rest.starts_with(b"//") {
                let end = rest.iter().position(|byte| matches!(byte, b'\n' | b'\r'));
                self.at += end.unwrap_or(rest.len());
            } else if rest.starts_with(b"/*") {
                self.pass_comment()?;
            } else if is_blank(byte) {
                self.pass_byte();
            } else {
                let ends = |&byte: &u8| is_blank(byte) || byte == b'/';
                let length = rest[1..].iter().position(ends);
                let length = length.map_or(rest.len(), |length| length + 1);
                self.at += length;
                return Ok(Some(&rest[..length]));
            }
        }
        Ok(None)
    }

    /// A comment that may go on over lines. Where it has no end, the line is that of its beginning.
    fn pass_comment(&mut self) -> Result<(), String> {
        let rest = &self.data[self.at + 2..];
        let end = rest.windows(2).position(|two| two == b"*/");
        let end = self.at + 4 + end.ok_or("the comment has no end")?;
        while self.at < end {
            self.pass_byte();
        }
        Ok(())
    }

    /// A byte that is no word's. Lines end as those of any system do.
    fn pass_byte(&mut self) {
        let rest = &self.data[self.at..];
        if rest.starts_with(b"\n") || rest.starts_with(b"\r") && !rest.starts_with(b"\r\n") {
            // What ends the file begins no line.
            self.line += usize::from(rest.len() > 1);
        }
        self.at += 1;
    }
}

/// The words that a file gives.
struct Words {
    form: Form,
    values: Vec<u64>,
    /// The line of each that is given.
    lines: Vec<Option<usize>>,
    /// The number of the next one.
    next: u64,
}

impl Words {
    fn new(form: Form) -> Words {
        Words {
            form,
            values: vec![0; form.words],
            lines: vec![None; form.words],
            next: 0,
        }
    }

    fn read(&mut self, reader: &mut Reader) -> Result<(), String> {
        while let Some(word) = reader.next()? {
            match word {
                [b'@', digits @ ..] => self.next = self.address(word, digits)?,
                _ => self.take(word, reader.line)?,
            }
        }
        let Form { table, words, .. } = self.form;
        let Some(first) = self.lines.iter().position(Option::is_none) else {
            return Ok(());
        };
        let given = self.lines.iter().flatten().count();
        Err(format!(
            "the {table} has {given} of its {words} words; word {first} is the first that is missing"
        ))
    }

    fn address(&self, word: &[u8], digits: &[u8]) -> Result<u64, String> {
        let value = value(digits).ok_or_else(|| {
            format!(
                "{} is no address: a hexadecimal number has to follow the @",
                shown(word)
            )
        })?;
        let last = self.form.words as u64 - 1;
        match value > last {
            true => Err(format!(
                "{} is out of range: the last word of the {} is at @{last:x}",
                shown(word),
                self.form.table
            )),
            false => Ok(value),
        }
    }

    fn take(&mut self, word: &[u8], line: usize) -> Result<(), String> {
        let (at, value) = (self.next, self.value(word)?);
        let (table, words) = (self.form.table, self.form.words);
        let Some(given) = self.lines.get_mut(at as usize) else {
            let word = shown(word);
            return Err(format!(
                "{word} is a word too many: the {table} must have {words}"
            ));
        };
        if let Some(first) = given {
            return Err(format!(
                "word {at} (@{at:x}) is given a second time, first in line {first}"
            ));
        }
        *given = Some(line);
        self.values[at as usize] = value;
        self.next += 1;
        Ok(())
    }

    fn value(&self, word: &[u8]) -> Result<u64, String> {
        let Form { table, digits, .. } = self.form;
        let unknown = |byte: &u8| b"xXzZ".contains(byte);
        if word.iter().any(unknown) && word.iter().all(|byte| unknown(byte) || is_digit(*byte)) {
            let hint = match word {
                [b'0', b'x' | b'X', _, ..] => " (a word has no 0x before it)",
                _ => "",
            };
            let word = shown(word);
            return Err(format!(
                "{word} has x or z for digits, and every bit must be known{hint}"
            ));
        }
        let value = value(word).ok_or_else(|| format!("{} is no hexadecimal word", shown(word)))?;
        let given = word.iter().filter(|&&byte| byte != b'_').count();
        match given > digits {
            true => Err(format!(
                "{} has {given} digits, and a word of the {table} has {digits}",
                shown(word)
            )),
            false => Ok(value),
        }
    }
}

fn is_digit(byte: u8) -> bool {
    byte == b'_' || byte.is_ascii_hexdigit()
}

/// A hexadecimal number in digits of either case, with `_` between them. Where 64 bits do not hold
/// it, it is the largest that they hold.
fn value(digits: &[u8]) -> Option<u64> {
    let is_number = digits.iter().all(|&byte| is_digit(byte));
    if !is_number || !digits.first()?.is_ascii_hexdigit() || !digits.last()?.is_ascii_hexdigit() {
        return None;
    }
    let digits = digits
        .iter()
        .filter_map(|&byte| char::from(byte).to_digit(16));
    let more = |value: u64, digit| value.saturating_mul(16).saturating_add(u64::from(digit));
    Some(digits.fold(0, more))
}
