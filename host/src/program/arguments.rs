//! The words of a call, of any bytes: options with a value, flags, and operands.

use std::ffi::{OsStr, OsString};
use std::fmt;
use std::os::unix::ffi::OsStrExt;
use zibewoka::DEGREES;

/// An option: `-d` and `--degree`.
#[derive(Debug, PartialEq, Eq)]
pub struct Named {
    pub short: u8,
    pub long: &'static str,
}

/// Which options a command takes.
pub struct Rules {
    pub flags: &'static [Named],
    pub valued: &'static [Named],
}

/// What is wrong with a call's words.
#[derive(Debug, PartialEq, Eq)]
pub enum Wrong {
    /// There is no such command.
    Command(OsString),
    /// There is no such option.
    Option(OsString),
    /// An option without the value that it needs.
    NoValue(&'static str),
    /// A flag with a value.
    Value(OsString),
    /// An option that stands there twice.
    Twice(&'static str),
    /// An option or an operand that is needed.
    Missing(&'static str),
    /// An operand more than the command takes.
    Operand(OsString),
    /// An operand that should be a number.
    Number { name: &'static str, word: OsString },
    /// The value of an option that should be a degree.
    Degree(OsString),
    /// Two things that are to be read from the one standard input.
    StandardInput,
    /// An output that would take the place of what is read.
    Output(OsString),
}

impl fmt::Display for Wrong {
    fn fmt(&self, f: &mut fmt::Formatter) -> fmt::Result {
        match self {
            Wrong::Command(word) => write!(f, "there is no command {word:?}"),
            Wrong::Option(word) => write!(f, "there is no option {word:?}"),
            Wrong::NoValue(name) => write!(f, "option --{name} needs a value"),
            Wrong::Value(word) => write!(f, "{word:?}: this option takes no value"),
            Wrong::Twice(name) => write!(f, "option --{name} is given twice"),
            Wrong::Missing(name) => write!(f, "{name} is missing"),
            Wrong::Operand(word) => write!(f, "{word:?} is one operand too many"),
            Wrong::Number { name, word } => {
                write!(f, "{name} is {word:?}, not a decimal number from 0 to {}", u32::MAX)
            }
            Wrong::Degree(word) => {
                write!(f, "option --degree is {word:?}, not a number from {} to {}", DEGREES.start(), DEGREES.end())
            }
            Wrong::StandardInput => write!(f, "standard input can be read only once"),
            Wrong::Output(word) => write!(f, "{word:?} is the list itself, which the picture would replace"),
        }
    }
}

/// The words of a call, told apart.
#[derive(Debug, Default)]
pub struct Arguments {
    flags: Vec<&'static str>,
    values: Vec<(&'static str, OsString)>,
    operands: Vec<OsString>,
}

impl Arguments {
    /// Tells options and operands apart. `--` ends the options, and `-` is an operand.
    pub fn read(words: impl IntoIterator<Item = OsString>, rules: &Rules) -> Result<Arguments, Wrong> {
        let mut words = words.into_iter();
        let mut arguments = Arguments::default();
        while let Some(word) = words.next() {
            match word.as_bytes() {
                b"--" => arguments.operands.extend(&mut words),
                [b'-', b'-', long @ ..] => {
                    let mut parts = long.splitn(2, |&byte| byte == b'=');
                    let name = parts.next().unwrap_or_default();
                    let is_named = |option: &&Named| option.long.as_bytes() == name;
                    arguments.option(rules, is_named, &word, parts.next(), &mut words)?;
                }
                [b'-', short, attached @ ..] => {
                    let is_named = |option: &&Named| option.short == *short;
                    let attached = (!attached.is_empty()).then_some(attached);
                    arguments.option(rules, is_named, &word, attached, &mut words)?;
                }
                _ => arguments.operands.push(word),
            }
        }
        Ok(arguments)
    }

    /// Takes in one option: its value is attached to the word, or is the next one.
    fn option(
        &mut self,
        rules: &Rules,
        is_named: impl Fn(&&Named) -> bool,
        word: &OsStr,
        attached: Option<&[u8]>,
        words: &mut impl Iterator<Item = OsString>,
    ) -> Result<(), Wrong> {
        if let Some(Named { long, .. }) = rules.valued.iter().find(&is_named) {
            if self.value(long).is_some() {
                return Err(Wrong::Twice(long));
            }
            let value = attached.map(|bytes| OsStr::from_bytes(bytes).to_owned()).or_else(|| words.next());
            self.values.push((long, value.ok_or(Wrong::NoValue(long))?));
            return Ok(());
        }
        match (rules.flags.iter().find(&is_named), attached) {
            (Some(flag), None) => self.flags.push(flag.long),
            (Some(_), Some(_)) => return Err(Wrong::Value(word.to_owned())),
            (None, _) => return Err(Wrong::Option(word.to_owned())),
        }
        Ok(())
    }

    /// Whether a flag is there.
    pub fn has(&self, long: &str) -> bool {
        self.flags.contains(&long)
    }

    /// The value of an option, if it is there.
    pub fn value(&self, long: &str) -> Option<&OsStr> {
        self.values.iter().find(|(name, _)| *name == long).map(|(_, value)| value.as_os_str())
    }

    /// The degree that the option asks for, if it is there.
    pub fn degree(&self) -> Result<Option<u32>, Wrong> {
        let degree = |word: &OsStr| parsed(word.as_bytes()).filter(|degree| DEGREES.contains(degree));
        self.value("degree").map(|word| degree(word).ok_or_else(|| Wrong::Degree(word.to_owned()))).transpose()
    }

    /// The operands of a command that takes as many as there are names.
    pub fn operands<const N: usize>(&self, names: [&'static str; N]) -> Result<[&OsStr; N], Wrong> {
        if let Some(extra) = self.operands.get(N) {
            return Err(Wrong::Operand(extra.clone()));
        }
        let mut operands = [OsStr::new(""); N];
        for (x, name) in names.into_iter().enumerate() {
            operands[x] = self.operands.get(x).ok_or(Wrong::Missing(name))?;
        }
        Ok(operands)
    }

    /// The operands of a command that takes one or more.
    pub fn some_operands(&self, name: &'static str) -> Result<&[OsString], Wrong> {
        match &self.operands[..] {
            [] => Err(Wrong::Missing(name)),
            operands => Ok(operands),
        }
    }
}

/// The number that a word is: decimal digits alone, of 32 bits.
pub fn number(name: &'static str, word: &OsStr) -> Result<u32, Wrong> {
    parsed(word.as_bytes()).ok_or_else(|| Wrong::Number { name, word: word.to_owned() })
}

/// The number that decimal digits are, if it has 32 bits. Rust's own reading of numbers takes a sign too.
pub fn parsed(digits: &[u8]) -> Option<u32> {
    if digits.is_empty() {
        return None;
    }
    digits.iter().try_fold(0u32, |number, digit| {
        let digit = digit.is_ascii_digit().then(|| u32::from(digit - b'0'))?;
        number.checked_mul(10)?.checked_add(digit)
    })
}

#[cfg(test)]
mod tests {
    use super::*;

    const RULES: Rules = Rules {
        flags: &[Named { short: b'h', long: "help" }],
        valued: &[Named { short: b'd', long: "degree" }, Named { short: b'o', long: "output" }],
    };

    fn read(words: &[&str]) -> Result<Arguments, Wrong> {
        Arguments::read(words.iter().map(OsString::from), &RULES)
    }

    fn wrong(words: &[&str]) -> Wrong {
        read(words).expect_err("a wrong call")
    }

    #[test]
    fn a_value_is_attached_or_the_next_word() {
        for words in [&["-d", "3"][..], &["-d3"], &["--degree", "3"], &["--degree=3"]] {
            let arguments = read(words).expect("a right call");
            assert_eq!(arguments.degree(), Ok(Some(3)), "{words:?}");
            assert_eq!((arguments.value("output"), arguments.has("help")), (None, false));
            assert_eq!(arguments.operands([]), Ok([]));
        }
    }

    #[test]
    fn options_and_operands_in_any_order() {
        for words in [&["a", "-d", "3", "b", "-h"][..], &["-h", "a", "b", "-d3"], &["-hd3"][..0]] {
            let arguments = read(words).expect("a right call");
            assert_eq!(arguments.has("help"), !words.is_empty());
            let operands = arguments.some_operands("FILE").map(<[OsString]>::len);
            assert_eq!(operands, if words.is_empty() { Err(Wrong::Missing("FILE")) } else { Ok(2) });
        }
    }

    #[test]
    fn values_may_look_like_anything() {
        for (words, value) in [
            (&["-o", "-"][..], "-"),
            (&["-o-"], "-"),
            (&["-o=x"], "=x"),
            (&["--output="], ""),
            (&["--output=a=b"], "a=b"),
            (&["-o", "--help"], "--help"),
            (&["-o", "--"], "--"),
            (&["-o", ""], ""),
        ] {
            assert_eq!(read(words).expect("a right call").value("output"), Some(OsStr::new(value)), "{words:?}");
        }
    }

    #[test]
    fn two_dashes_end_the_options() {
        let arguments = read(&["-", "--", "-d", "--", "--help"]).expect("a right call");
        assert_eq!(arguments.operands(["A", "B", "C", "D"]), Ok(["-", "-d", "--", "--help"].map(OsStr::new)));
        assert!(!arguments.has("help"));
    }

    #[test]
    fn wrong_options_are_named() {
        assert_eq!(wrong(&["-x"]), Wrong::Option("-x".into()));
        assert_eq!(wrong(&["--deg=3"]), Wrong::Option("--deg=3".into()));
        assert_eq!(wrong(&["--=3"]), Wrong::Option("--=3".into()));
        assert_eq!(wrong(&["-5"]), Wrong::Option("-5".into()));
        assert_eq!(wrong(&["-hx"]), Wrong::Value("-hx".into()));
        assert_eq!(wrong(&["--help=yes"]), Wrong::Value("--help=yes".into()));
        assert_eq!(wrong(&["a", "-d"]), Wrong::NoValue("degree"));
        assert_eq!(wrong(&["--output"]), Wrong::NoValue("output"));
        assert_eq!(wrong(&["-d", "2", "--degree=2"]), Wrong::Twice("degree"));
    }

    #[test]
    fn operands_are_counted() {
        let arguments = read(&["a", "b"]).expect("a right call");
        assert_eq!(arguments.operands(["A", "B"]), Ok(["a", "b"].map(OsStr::new)));
        assert_eq!(arguments.operands(["A", "B", "C"]), Err(Wrong::Missing("C")));
        assert_eq!(arguments.operands(["A"]), Err(Wrong::Operand("b".into())));
    }

    #[test]
    fn words_of_any_bytes() {
        let bytes = |bytes: &[u8]| OsStr::from_bytes(bytes).to_owned();
        let words = [bytes(b"\xff"), bytes(b"-o\xfe\xff"), bytes(b"-d"), bytes(b"\x80")];
        let arguments = Arguments::read(words, &RULES).expect("a right call");
        assert_eq!(arguments.operands(["FILE"]), Ok([OsStr::from_bytes(b"\xff")]));
        assert_eq!(arguments.value("output"), Some(OsStr::from_bytes(b"\xfe\xff")));
        let none = arguments.degree().expect_err("no number");
        assert_eq!(none.to_string(), r#"option --degree is "\x80", not a number from 2 to 64"#);
        let place = number("PLACE", OsStr::from_bytes(b"\x80")).expect_err("no number");
        assert_eq!(place.to_string(), r#"PLACE is "\x80", not a decimal number from 0 to 4294967295"#);
        let unknown = Arguments::read([bytes(b"-\xff")], &RULES).expect_err("no such option");
        assert_eq!(unknown.to_string(), r#"there is no option "-\xFF""#);
    }

    #[test]
    fn degrees_are_2_to_64() {
        assert_eq!(read(&[]).expect("a right call").degree(), Ok(None));
        for (word, degree) in [("2", Some(2)), ("064", Some(64)), ("1", None), ("65", None), ("x", None), ("", None)] {
            let wanted = degree.map(Some).ok_or(Wrong::Degree(word.into()));
            assert_eq!(read(&["-d", word]).expect("a right call").degree(), wanted);
        }
    }

    #[test]
    fn numbers_are_decimal_digits_of_32_bits() {
        for (word, number) in [("0", 0), ("007", 7), ("4294967295", u32::MAX), ("0000000000004294967295", u32::MAX)] {
            assert_eq!(parsed(word.as_bytes()), Some(number));
        }
        for word in
            ["", "+5", "-5", "0x10", " 5", "5 ", "5\n", "1_000", "1,000", "5.0", "4294967296", "99999999999", "٣"]
        {
            assert_eq!(parsed(word.as_bytes()), None, "{word:?}");
        }
    }
}
