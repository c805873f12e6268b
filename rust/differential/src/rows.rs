//! Rows of named fields, in which the cases of the test programs are written.
//!
//! ```text
//! # a remark
//! step ADD@ R4,R4 is R4 + 1 + word            the kind of the case, and its name
//! before flags=SZOC 0100=02E4 1414=0005       fields `key=value`, in any order
//! after flags=- r4=141A r7=0101 answer=executed cycles=8
//! ```
//!
//! A text is always a row's last field, as it may have spaces; in a text of several lines `/` stands for a line feed and `^` for a carriage
//! return. A board's map is a field too: `map=0000-00EF:ram8,5000-6FFF:rom`, the range that decides first at the front, or `map=none`. So is a
//! set of addresses: `clear=0010,0012-0015`. `pattern=0100-10FF` gives many words that differ, and a file may have such words:
//! `file=49440002415401001000,0100-10FF,4F4B6902`.
//!
//! What is left out has its default; what is not understood is an error. So each reader takes the fields that it knows from a row, and
//! [`Fields::end`] finds what nobody took.

use cp1610::{Kind, Range};
use std::collections::BTreeMap;
use std::ops::RangeInclusive;
use std::str::FromStr;

/// A case: three rows of a file.
#[derive(Clone, Copy, Debug, PartialEq, Eq)]
pub struct Case<'a> {
    /// Where its first row stands; a file's first row is 1.
    pub row: usize,
    /// What is called.
    pub kind: &'a str,
    /// What the case is about.
    pub name: &'a str,
    before: &'a str,
    after: &'a str,
}

impl<'a> Case<'a> {
    /// The fields of the two rows.
    ///
    /// # Errors
    ///
    /// Where one of them is not of the form.
    pub fn fields(&self) -> Result<(Fields<'a>, Fields<'a>), String> {
        Ok((Fields::read(self.before)?, Fields::read(self.after)?))
    }
}

/// The cases of a file.
///
/// # Errors
///
/// Where a row is missing, or stands where none is expected.
pub fn cases(file: &str) -> Result<Vec<Case<'_>>, String> {
    let rows: Vec<(usize, &str)> = (1..).zip(file.split('\n')).filter(|(_, row)| !is_remark(row)).collect();
    rows.chunks(3).map(case).collect()
}

fn is_remark(row: &str) -> bool {
    row.is_empty() || row.starts_with('#')
}

fn case<'a>(rows: &[(usize, &'a str)]) -> Result<Case<'a>, String> {
    let &[(row, title), (_, before), (_, after)] = rows else {
        return Err("the last case has too few rows".into());
    };
    let (kind, name) = title.split_once(' ').ok_or(format!("row {row} has no name: {title}"))?;
    let (Some(before), Some(after)) = (body(before, "before"), body(after, "after")) else {
        return Err(format!("row {row} is not followed by `before` and `after`: {title}"));
    };
    Ok(Case { row, kind, name, before, after })
}

/// What follows a row's first word.
fn body<'a>(row: &'a str, word: &str) -> Option<&'a str> {
    let rest = row.strip_prefix(word)?;
    if rest.is_empty() { Some(rest) } else { rest.strip_prefix(' ') }
}

/// The key whose value is all that is left of its row.
const TEXT: &str = "text";

/// The fields of a row that were not taken yet.
#[derive(Debug)]
pub struct Fields<'a> {
    left: BTreeMap<&'a str, &'a str>,
}

impl<'a> Fields<'a> {
    /// The fields of what follows a row's first word.
    ///
    /// # Errors
    ///
    /// Where something is no field, or a key stands twice.
    pub fn read(row: &'a str) -> Result<Fields<'a>, String> {
        let mut fields = Fields { left: BTreeMap::new() };
        let mut rest = row.trim_start_matches(' ');
        while !rest.is_empty() {
            let (key, behind) = rest.split_once('=').ok_or(format!("{rest} is no field"))?;
            let end = if key == TEXT { behind.len() } else { behind.find(' ').unwrap_or(behind.len()) };
            let (value, next) = behind.split_at(end);
            if key.is_empty() || key.contains(' ') {
                return Err(format!("{key} is no key"));
            }
            if fields.left.insert(key, value).is_some() {
                return Err(format!("{key} stands twice"));
            }
            rest = next.trim_start_matches(' ');
        }
        Ok(fields)
    }

    /// The value of a key, if there is one.
    pub fn take(&mut self, key: &str) -> Option<&'a str> {
        self.left.remove(key)
    }

    /// The value of a key that may not be left out.
    ///
    /// # Errors
    ///
    /// Where it is.
    pub fn expect(&mut self, key: &str) -> Result<&'a str, String> {
        self.take(key).ok_or(format!("{key} is missing"))
    }

    /// A value that is read in some way, if there is one.
    ///
    /// # Errors
    ///
    /// Where it can't be read so.
    pub fn read_as<T>(&mut self, key: &str, read: fn(&str) -> Option<T>) -> Result<Option<T>, String> {
        match self.take(key) {
            Some(value) => read(value).map(Some).ok_or(format!("{key} can't be {value}")),
            None => Ok(None),
        }
    }

    /// A word of four hexadecimal digits.
    ///
    /// # Errors
    ///
    /// Where it is something else.
    pub fn word(&mut self, key: &str, default: u16) -> Result<u16, String> {
        Ok(self.read_as(key, word)?.unwrap_or(default))
    }

    /// A decimal number.
    ///
    /// # Errors
    ///
    /// Where it is something else.
    pub fn number<T: FromStr>(&mut self, key: &str, default: T) -> Result<T, String> {
        Ok(self.read_as(key, number)?.unwrap_or(default))
    }

    /// 0 or 1.
    ///
    /// # Errors
    ///
    /// Where it is something else.
    pub fn bit(&mut self, key: &str, default: bool) -> Result<bool, String> {
        Ok(self.read_as(key, bit)?.unwrap_or(default))
    }

    /// All words that are given at an address, as by `0100=02E4,0005`, and under them those of a part of the pattern.
    ///
    /// # Errors
    ///
    /// Where something else is given there, or two words at one address.
    pub fn words(&mut self) -> Result<BTreeMap<usize, u16>, String> {
        let firsts: Vec<(&str, u16)> = self.left.keys().filter_map(|key| Some((*key, word(key)?))).collect();
        let mut words = BTreeMap::new();
        for (key, first) in firsts {
            for (at, word) in (first.into()..).zip(self.read_as(key, list)?.unwrap_or_default()) {
                if words.insert(at, word).is_some() {
                    return Err(format!("two words are given at {at:04X}"));
                }
            }
        }
        for at in self.read_as("pattern", part)?.into_iter().flatten() {
            words.entry(at.into()).or_insert(pattern(at));
        }
        Ok(words)
    }

    /// The end of a row, where each field was taken.
    ///
    /// # Errors
    ///
    /// Where one was not.
    pub fn end(self) -> Result<(), String> {
        match self.left.first_key_value() {
            Some((key, value)) => Err(format!("{key}={value} is not understood here")),
            None => Ok(()),
        }
    }
}

/// In upper case.
fn hex_digit(byte: u8) -> Option<u8> {
    match byte {
        b'0'..=b'9' => Some(byte - b'0'),
        b'A'..=b'F' => Some(byte - b'A' + 10),
        _ => None,
    }
}

/// Four hexadecimal digits.
pub fn word(value: &str) -> Option<u16> {
    let &[high, low] = bytes(value)?.as_slice() else { return None };
    Some(u16::from_be_bytes([high, low]))
}

/// Words with commas between them.
pub fn list(value: &str) -> Option<Vec<u16>> {
    value.split(',').map(word).collect()
}

/// Addresses and spans of addresses with commas between them.
pub fn spans(value: &str) -> Option<Vec<RangeInclusive<u16>>> {
    value.split(',').map(span).collect()
}

/// `FIRST-LAST`, or one address.
fn span(value: &str) -> Option<RangeInclusive<u16>> {
    if value.contains('-') { part(value) } else { word(value).map(|address| address..=address) }
}

/// `FIRST-LAST`.
fn part(value: &str) -> Option<RangeInclusive<u16>> {
    let (first, last) = value.split_once('-')?;
    let part = word(first)?..=word(last)?;
    if part.is_empty() { None } else { Some(part) }
}

/// The word that the pattern has at an address, and at no other.
pub fn pattern(address: u16) -> u16 {
    address.wrapping_mul(259).wrapping_add(7)
}

/// The bytes of a file: pieces with commas between them.
pub fn file(value: &str) -> Option<Vec<u8>> {
    Some(value.split(',').map(piece).collect::<Option<Vec<_>>>()?.concat())
}

/// Bytes, or the pattern's words from an address to another.
fn piece(value: &str) -> Option<Vec<u8>> {
    if !value.contains('-') {
        return bytes(value);
    }
    Some(part(value)?.flat_map(|address| pattern(address).to_be_bytes()).collect())
}

/// Ranges with commas between them, or `none`. Any ranges are taken, good or bad.
pub fn map(value: &str) -> Option<Vec<Range>> {
    if value == "none" { Some(Vec::new()) } else { value.split(',').map(range).collect() }
}

/// `FIRST-LAST:KIND`.
fn range(value: &str) -> Option<Range> {
    let (addresses, kind) = value.split_once(':')?;
    let (first, last) = addresses.split_once('-')?;
    let kind = match kind {
        "rom" => Kind::Rom,
        "ram16" => Kind::Ram16,
        "ram8" => Kind::Ram8,
        _ => return None,
    };
    Some(Range { first: word(first)?, last: word(last)?, kind })
}

/// Bytes of two hexadecimal digits each, or none.
pub fn bytes(value: &str) -> Option<Vec<u8>> {
    let byte = |digits: &[u8]| match digits {
        [high, low] => Some(hex_digit(*high)? << 4 | hex_digit(*low)?),
        _ => None,
    };
    value.as_bytes().chunks(2).map(byte).collect()
}

/// The bytes of a text of several lines.
pub fn lines(value: &str) -> Vec<u8> {
    let byte = |shown| match shown {
        b'/' => b'\n',
        b'^' => b'\r',
        other => other,
    };
    value.bytes().map(byte).collect()
}

/// Decimal digits.
pub fn number<T: FromStr>(value: &str) -> Option<T> {
    if value.bytes().all(|byte| byte.is_ascii_digit()) { value.parse().ok() } else { None }
}

/// 0 or 1.
pub fn bit(value: &str) -> Option<bool> {
    match value {
        "0" => Some(false),
        "1" => Some(true),
        _ => None,
    }
}

#[cfg(test)]
mod tests {
    use super::{Fields, bytes, cases, file, lines, map, spans};
    use cp1610::Range;

    #[test]
    fn a_case_is_three_rows() {
        let file =
            "# remark\n\nlist NOP, alone\nbefore 0000=0034\n\n# remark\nafter answer=listed  words=1 text=NOP \n";
        let cases = cases(file).expect("the file is of the form");
        let [case] = cases[..] else { panic!("{} cases", cases.len()) };
        assert_eq!((case.row, case.kind, case.name), (3, "list", "NOP, alone"));
        let (mut before, mut after) = case.fields().expect("the rows are of the form");
        assert_eq!(before.words().map(Vec::from_iter), Ok(vec![(0, 0x34)]));
        assert_eq!(
            (after.take("answer"), after.number("words", 0), after.take("text")),
            (Some("listed"), Ok(1), Some("NOP "))
        );
        assert_eq!((after.word("address", 7), after.bit("d", true)), (Ok(7), Ok(true)));
        assert_eq!((before.end(), after.end()), (Ok(()), Ok(())));
    }

    #[test]
    fn a_map_is_a_list_of_ranges() {
        let ranges = vec![Range::ram8(0, 0xEF), Range::ram16(0x1FF, 0x100), Range::rom(0x5000, 0x6FFF)];
        assert_eq!(map("0000-00EF:ram8,01FF-0100:ram16,5000-6FFF:rom"), Some(ranges));
        assert_eq!(map("none"), Some(vec![]));
        for value in ["", "0000-00EF", "0000:ram8", "0000-00EF:RAM8", "0-00EF:rom", "0000-00ef:rom", "0000-00EF:rom,"] {
            assert_eq!(map(value), None, "{value}");
        }
    }

    #[test]
    fn a_set_is_a_list_of_spans() {
        assert_eq!(spans("0010,0012-0015,FFFF"), Some(vec![0x10..=0x10, 0x12..=0x15, 0xFFFF..=0xFFFF]));
        for value in ["", "0010,", "10", "0010-", "0015-0012", "0010--0015", "0010-0012-0015", "001a"] {
            assert_eq!(spans(value), None, "{value}");
        }
    }

    #[test]
    fn a_file_is_a_list_of_pieces() {
        assert_eq!(file("4944,0001-0002,4F"), Some(vec![0x49, 0x44, 0x01, 0x0A, 0x02, 0x0D, 0x4F]));
        assert_eq!((file(""), file("FFFF-FFFF")), (Some(vec![]), Some(vec![0xFF, 0x04])));
        for value in ["494", "4944,1", "0002-0001", "0001-", "1-2", "0001-0002-0003", "4g"] {
            assert_eq!(file(value), None, "{value}");
        }
    }

    #[test]
    fn a_list_stands_over_the_pattern() {
        let mut fields = Fields::read("0001=AAAA pattern=0000-0002").expect("the row is of the form");
        assert_eq!(fields.words().map(Vec::from_iter), Ok(vec![(0, 0x0007), (1, 0xAAAA), (2, 0x020D)]));
        assert_eq!(fields.end(), Ok(()));
        assert!(Fields::read("pattern=0001").expect("the row is of the form").words().is_err());
    }

    #[test]
    fn a_text_of_lines_is_the_rest_of_its_row() {
        let mut fields = Fields::read("bin=12 text=[mapping]^/ / bin=34/").expect("the row is of the form");
        assert_eq!(fields.take("text").map(lines), Some(b"[mapping]\r\n \n bin=34\n".to_vec()));
        assert_eq!(fields.take("bin"), Some("12"));
    }

    #[test]
    fn a_missing_row_is_an_error() {
        for file in ["step x\nbefore\n", "step x\nafter\nbefore\n", "step\nbefore\nafter\n", "step x\nbefores\nafter\n"]
        {
            assert!(cases(file).is_err(), "{file}");
        }
        assert_eq!(cases("step x\nbefore\nafter\n").map(|cases| cases.len()), Ok(1));
    }

    #[test]
    fn what_is_no_field_is_an_error() {
        for row in ["r0", "r0=0001 r0=0001", "=0001", "a r0=0001"] {
            assert!(Fields::read(row).is_err(), "{row}");
        }
    }

    #[test]
    fn what_nobody_takes_is_an_error() {
        let mut fields = Fields::read("r0=0001 r9=0001").expect("the row is of the form");
        assert_eq!(fields.word("r0", 0), Ok(1));
        assert_eq!(fields.end(), Err("r9=0001 is not understood here".into()));
    }

    #[test]
    fn a_value_of_another_form_is_an_error() {
        for row in ["r0=1", "r0=00001", "r0=000g", "r0=00ab", "r0="] {
            assert!(Fields::read(row).expect("the row is of the form").word("r0", 0).is_err(), "{row}");
        }
        for row in ["size=+1", "size=-1", "size=", "size=1x", "size=99999999999"] {
            assert!(Fields::read(row).expect("the row is of the form").number("size", 0u32).is_err(), "{row}");
        }
        for row in ["d=2", "d=", "d=01"] {
            assert!(Fields::read(row).expect("the row is of the form").bit("d", false).is_err(), "{row}");
        }
        for row in ["0100=", "0100=1", "0100=0001,", "0100=0001,0002 0101=0003"] {
            assert!(Fields::read(row).expect("the row is of the form").words().is_err(), "{row}");
        }
        assert_eq!(
            (bytes("494"), bytes("4g"), bytes(""), bytes("4944")),
            (None, None, Some(vec![]), Some(vec![0x49, 0x44]))
        );
    }
}
