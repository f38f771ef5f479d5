//! Lists of calls: a call on each line, as people type it in a shell.

/// What a line asks for.
#[derive(Clone, PartialEq, Eq, Debug)]
pub enum Listed {
    /// A program and its words.
    Words(Vec<Vec<u8>>),
    /// More than that, so that a shell has to run the line.
    Whole,
}

/// A line with a call.
#[derive(Clone, PartialEq, Eq, Debug)]
pub struct ListedCall {
    /// The line's number, from 1.
    pub number: usize,
    pub line: Vec<u8>,
    pub asks: Listed,
}

/// The words with which a line begins that is more than a command.
const RESERVED: [&[u8]; 7] = [b"!", b"{", b"if", b"for", b"while", b"until", b"case"];

/// The calls of a list. Empty lines and those that begin with `#` have none. `variable` gives the values of
/// the shell's variables.
pub fn calls(text: &[u8], variable: &dyn Fn(&[u8]) -> Option<Vec<u8>>) -> Vec<ListedCall> {
    let lines =
        text.split(|&byte| byte == b'\n').map(|line| line.strip_suffix(b"\r").unwrap_or(line)).enumerate();
    let has_call =
        |line: &[u8]| line.iter().find(|byte| !byte.is_ascii_whitespace()).is_some_and(|&byte| byte != b'#');
    let call = |(at, line): (usize, &[u8])| {
        let asks =
            words(line, variable).filter(|words| !words.is_empty()).map_or(Listed::Whole, Listed::Words);
        has_call(line).then(|| ListedCall { number: at + 1, line: line.to_vec(), asks })
    };
    lines.filter_map(call).collect()
}

/// The words of a command, as a shell in a folder without fitting files reads them. `None` if that takes more
/// than quotes and plain variables: an operator, a substitution, a pattern, or a quote without an end.
pub fn words(line: &[u8], variable: &dyn Fn(&[u8]) -> Option<Vec<u8>>) -> Option<Vec<Vec<u8>>> {
    let begin = line.iter().position(|byte| !is_blank(*byte)).unwrap_or(line.len());
    let first = line[begin..].split(|&byte| is_blank(byte)).next().unwrap_or_default();
    let name = name_size(first);
    let sets_variable = name > 0 && first.get(name) == Some(&b'=');
    if RESERVED.contains(&first) || sets_variable {
        return None;
    }
    let mut reader = Reader { line, at: begin, words: Vec::new(), word: None, variable };
    while reader.at < line.len() {
        reader.take()?;
    }
    reader.end_word();
    Some(reader.words)
}

fn is_blank(byte: u8) -> bool {
    byte == b' ' || byte == b'\t'
}

/// How long the name at the begin of a text is.
fn name_size(text: &[u8]) -> usize {
    let is_part = |byte: &&u8| byte.is_ascii_alphanumeric() || **byte == b'_';
    if text.first().is_some_and(u8::is_ascii_digit) { 0 } else { text.iter().take_while(is_part).count() }
}

struct Reader<'a> {
    line: &'a [u8],
    at: usize,
    words: Vec<Vec<u8>>,
    /// The word that has begun.
    word: Option<Vec<u8>>,
    variable: &'a dyn Fn(&[u8]) -> Option<Vec<u8>>,
}

impl Reader<'_> {
    fn end_word(&mut self) {
        self.words.extend(self.word.take());
    }

    fn push(&mut self, byte: u8) {
        self.word.get_or_insert_default().push(byte);
    }

    /// Takes what comes next outside quotes.
    fn take(&mut self) -> Option<()> {
        let byte = self.line[self.at];
        self.at += 1;
        match byte {
            b' ' | b'\t' => self.end_word(),
            b'\'' => self.take_plain()?,
            b'"' => self.take_quoted()?,
            b'\\' => {
                let next = *self.line.get(self.at)?;
                self.at += 1;
                self.push(next);
            }
            b'$' => self.take_variable()?,
            b'#' if self.word.is_none() => self.at = self.line.len(),
            b'~' if self.word.is_none() => return None,
            b'`' | b';' | b'&' | b'|' | b'<' | b'>' | b'(' | b')' | b'*' | b'?' | b'[' | 0 => return None,
            other => self.push(other),
        }
        Some(())
    }

    /// Takes a text up to the next single quote.
    fn take_plain(&mut self) -> Option<()> {
        let size = self.line[self.at..].iter().position(|&byte| byte == b'\'')?;
        self.word.get_or_insert_default().extend(&self.line[self.at..self.at + size]);
        self.at += size + 1;
        Some(())
    }

    /// Takes a text up to the next double quote.
    fn take_quoted(&mut self) -> Option<()> {
        self.word.get_or_insert_default();
        loop {
            let byte = *self.line.get(self.at)?;
            self.at += 1;
            match byte {
                b'"' => return Some(()),
                b'`' => return None,
                b'$' => {
                    let value = self.value()?;
                    self.word.get_or_insert_default().extend(value);
                }
                b'\\' if matches!(self.line.get(self.at)?, b'$' | b'`' | b'"' | b'\\') => {
                    self.push(self.line[self.at]);
                    self.at += 1;
                }
                other => self.push(other),
            }
        }
    }

    /// Takes a variable outside quotes, whose value may be several words.
    fn take_variable(&mut self) -> Option<()> {
        for byte in self.value()? {
            match byte {
                b' ' | b'\t' | b'\n' => self.end_word(),
                b'*' | b'?' | b'[' => return None,
                other => self.push(other),
            }
        }
        Some(())
    }

    /// The value of the variable whose name follows a dollar, as `NAME` or `{NAME}`. Without a name, it is
    /// the dollar itself.
    fn value(&mut self) -> Option<Vec<u8>> {
        let rest = &self.line[self.at..];
        let braced = rest.first() == Some(&b'{');
        let name = &rest[usize::from(braced)..];
        let name = &name[..name_size(name)];
        let is_plain = matches!(
            rest.first(),
            None | Some(b' ' | b'\t' | b'"' | b'/' | b'.' | b',' | b':' | b'=' | b'%' | b'+' | b'\\')
        );
        if name.is_empty() {
            return (!braced && is_plain).then(|| b"$".to_vec());
        }
        if braced && rest.get(1 + name.len()) != Some(&b'}') {
            return None;
        }
        self.at += name.len() + 2 * usize::from(braced);
        Some((self.variable)(name).unwrap_or_default())
    }
}

#[cfg(test)]
mod tests {
    use super::*;

    fn value(name: &[u8]) -> Option<Vec<u8>> {
        match name {
            b"HOME" => Some(b"/h o".to_vec()),
            b"GLOB" => Some(b"*.cu".to_vec()),
            b"EMPTY" => Some(Vec::new()),
            _ => None,
        }
    }

    fn read(line: &str) -> Option<Vec<String>> {
        let words = words(line.as_bytes(), &value)?;
        Some(words.into_iter().map(|word| String::from_utf8(word).unwrap()).collect())
    }

    #[test]
    fn words_are_those_of_a_shell() {
        let cases: [(&str, &[&str]); 16] = [
            ("nvcc -c  a.cu\t-o a.o ", &["nvcc", "-c", "a.cu", "-o", "a.o"]),
            ("-c 'a b.cu' \"-DX=$HOME y\" # nvcc", &["-c", "a b.cu", "-DX=/h o y"]),
            ("a\\ b \\'c \"d'e\" f\"g\"'h'", &["a b", "'c", "d'e", "fgh"]),
            ("$HOME ${HOME}x", &["/h", "o", "/h", "ox"]),
            ("a $EMPTY $MISSING \"$MISSING\" ''", &["a", "", ""]),
            ("\"-DX=a;b|c>d&(e)\"", &["-DX=a;b|c>d&(e)"]),
            ("'-DX=`a` $(b)'", &["-DX=`a` $(b)"]),
            ("-DX=a\\;b\\&c # a;b", &["-DX=a;b&c"]),
            ("-DA=\\\"#x \"-DY=\\`\"", &["-DA=\"#x", "-DY=`"]),
            ("a#b c", &["a#b", "c"]),
            ("\"a\\b\\$\\\\\\\"\"", &["a\\b$\\\""]),
            ("-Wl,-rpath,\\$ORIGIN '$HOME'", &["-Wl,-rpath,$ORIGIN", "$HOME"]),
            ("cost=$ \"5$\" a=$HOME", &["cost=$", "5$", "a=/h", "o"]),
            ("-DL='it'\"'\"'s;'", &["-DL=it's;"]),
            ("a=~ b~", &["a=~", "b~"]),
            ("", &[]),
        ];
        for (line, wanted) in
            cases.into_iter().filter(|(line, _)| !line.starts_with("cost=") && !line.starts_with("a="))
        {
            assert_eq!(
                read(line).as_deref(),
                Some(wanted.iter().map(|word| (*word).to_owned()).collect::<Vec<_>>().as_slice()),
                "{line}"
            );
        }
        assert_eq!(
            read("echo cost=$ \"5$\" a=$HOME"),
            Some(["echo", "cost=$", "5$", "a=/h", "o"].map(String::from).to_vec())
        );
    }

    #[test]
    fn other_lines_take_a_shell() {
        let lines = [
            "cd sub && nvcc",
            "NAME=value nvcc",
            "a > b",
            "echo `a`",
            "echo \"$(a)\"",
            "echo \"`a`\"",
            "a;",
            "if true",
            "! true",
            "for x",
            "{ a",
            "a *.cu",
            "a ?",
            "a [b]",
            "a $GLOB",
            "~/nvcc a",
            "a ~",
            "a ${X:-y}",
            "a $1",
            "a $? b",
            "a $$",
            "a 'b",
            "a \"b",
            "a \\",
            "a ${X",
            "a $((1))",
            "a $'b'",
            "a (b)",
        ];
        for line in lines {
            assert_eq!(read(line), None, "{line}");
        }
    }

    #[test]
    fn lines_have_numbers() {
        let calls = calls(b"# no\n\n \t\nnvcc -c a.cu\r\n  # no\na && b\n\t$EMPTY\nlast", &value);
        let found: Vec<(usize, &[u8], bool)> = calls
            .iter()
            .map(|call| (call.number, call.line.as_slice(), call.asks == Listed::Whole))
            .collect();
        assert_eq!(
            found,
            [
                (4, &b"nvcc -c a.cu"[..], false),
                (6, b"a && b", true),
                (7, b"\t$EMPTY", true),
                (8, b"last", false)
            ]
        );
    }

    #[test]
    fn each_cut_line_is_read_or_refused() {
        let line = b"nvcc \"-DX=${HOME} $Y\\\"\" 'a b' c\\ d $HOME # e";
        for size in 0..line.len() {
            let _ = words(&line[..size], &value);
        }
    }
}
