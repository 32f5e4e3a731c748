//! The command: encode, decode, stream and check from a terminal.
use bombrezen::{PHRASEOLOGY, Place, Refusal, RwkvTokenizer, VocabError};
use std::fmt::Write as _;
use std::io::{self, Read, Write};
use std::os::unix::ffi::OsStringExt;
use std::process::ExitCode;

const USAGE: &str = "\
usage: bombrezen COMMAND [OPTIONS]
  demo [TEXT]      encode a sentence, then stream it word by word
  encode [TEXT]    the ids of a text
  decode [ID ..]   the bytes of ids
  stream           the ids of standard input, as it comes
  check FILE       load a vocabulary: its counts, or why it is refused
encode and decode read standard input where nothing is given.
options:
  --vocab FILE     this vocabulary, and not the small one of radio phraseology
  --edition N      the vocabulary's edition, 1 or 2; 1 where nothing is said
  --partial        allow a vocabulary in which bytes have no token of their own
  --show           show the text too, with | between its tokens
  --looked         encode, stream: tell on standard error how many bytes were looked at
  --text           decode: refuse bytes that are not UTF-8
  --lossy          decode: put U+FFFD for what is not UTF-8";

/// What went wrong, for the user, and the exit status.
struct Failure {
    message: String,
    status: u8,
}

fn refused(message: impl ToString) -> Failure {
    Failure { message: message.to_string(), status: 1 }
}

fn misused(message: impl ToString) -> Failure {
    Failure { message: format!("{}\n{USAGE}", message.to_string()), status: 2 }
}

impl From<io::Error> for Failure {
    fn from(error: io::Error) -> Self {
        refused(error)
    }
}

/// The command line, taken apart.
#[derive(Default)]
struct Options {
    vocab: Option<String>,
    edition: u32,
    partial: bool,
    show: bool,
    looked: bool,
    text: bool,
    lossy: bool,
    words: Vec<Vec<u8>>,
}

fn main() -> ExitCode {
    match options().and_then(|(command, options)| run(&command, &options)) {
        Ok(()) => ExitCode::SUCCESS,
        Err(failure) => {
            eprintln!("bombrezen: {}", failure.message);
            ExitCode::from(failure.status)
        }
    }
}

fn run(command: &str, options: &Options) -> Result<(), Failure> {
    match command {
        "demo" => demo(options),
        "encode" => encode(options),
        "decode" => decode(options),
        "stream" => stream(options),
        "check" => check(options),
        "help" | "--help" | "-h" => {
            println!("{USAGE}");
            Ok(())
        }
        other => Err(misused(format!("there is no command {other:?}"))),
    }
}

/// The command, and the rest of the line. What follows `--` is no option.
fn options() -> Result<(String, Options), Failure> {
    let mut words = std::env::args_os().skip(1).map(OsStringExt::into_vec);
    let command = words.next().ok_or_else(|| misused("no command is given"))?;
    let mut options = Options { edition: 1, ..Options::default() };
    while let Some(word) = words.next() {
        match word.as_slice() {
            b"--vocab" => options.vocab = Some(lossy(&words.next().ok_or_else(|| misused("--vocab needs a file"))?)),
            b"--edition" => options.edition = edition(words.next())?,
            b"--partial" => options.partial = true,
            b"--show" => options.show = true,
            b"--looked" => options.looked = true,
            b"--text" => options.text = true,
            b"--lossy" => options.lossy = true,
            b"--" => options.words.extend(words.by_ref()),
            other if other.starts_with(b"--") => return Err(misused(format!("there is no option {}", lossy(other)))),
            _ => options.words.push(word),
        }
    }
    Ok((lossy(&command), options))
}

/// The number behind `--edition`. Whether there is such an edition is for the library to say.
fn edition(word: Option<Vec<u8>>) -> Result<u32, Failure> {
    let word = lossy(&word.ok_or_else(|| misused("--edition needs a number"))?);
    word.parse().map_err(|_| misused(format!("--edition needs a number up to 4294967295, and {word:?} is none")))
}

fn lossy(bytes: &[u8]) -> String {
    String::from_utf8_lossy(bytes).into_owned()
}

impl Options {
    /// The vocabulary that was named, or the small one.
    fn tokenizer(&self) -> Result<RwkvTokenizer, Failure> {
        match &self.vocab {
            Some(path) => load(path, self.edition, self.partial).map(|(tokenizer, _)| tokenizer),
            None => RwkvTokenizer::from_vocab_edition(PHRASEOLOGY.as_bytes(), self.edition, false).map_err(refused),
        }
    }

    /// The words of the command line with spaces between, or standard input.
    fn input(&self) -> Result<Vec<u8>, Failure> {
        if !self.words.is_empty() {
            return Ok(self.words.join(&b' '));
        }
        let mut input = Vec::new();
        io::stdin().read_to_end(&mut input)?;
        Ok(input)
    }
}

/// Loads a file; a refusal shows the line, and that of a bad byte its line and column.
fn load(path: &str, edition: u32, partial: bool) -> Result<(RwkvTokenizer, usize), Failure> {
    let text = std::fs::read(path).map_err(|error| refused(format!("{path}: {error}")))?;
    match RwkvTokenizer::from_vocab_edition(&text, edition, partial) {
        Ok(tokenizer) => Ok((tokenizer, text.len())),
        Err(VocabError::Invalid(refusal)) => Err(refused(format!("{path}: {}", told(&text, refusal)))),
        Err(error) => Err(refused(error)),
    }
}

/// A refusal in words, and the line that it speaks of.
fn told(text: &[u8], refusal: Refusal) -> String {
    match refusal.place {
        Place::Line(line) => {
            let line = line as usize;
            format!("{refusal}{}", line_shown(line, b"", text.split(|&byte| byte == b'\n').nth(line - 1).unwrap_or_default()))
        }
        Place::Offset(offset) => {
            let (line, before, rest) = line_at(text, offset as usize);
            // All before the first bad byte is UTF-8, so its characters can be counted.
            let column = 1 + lossy(before).chars().count();
            format!("line {line}, column {column}, {refusal}{}", line_shown(line, before, rest))
        }
        Place::None | Place::Byte(_) => refusal.to_string(),
    }
}

/// The line of an offset, counted from 1, and its bytes before the offset and from there on.
fn line_at(text: &[u8], offset: usize) -> (usize, &[u8], &[u8]) {
    let (before, rest) = text.split_at(offset);
    let start = before.iter().rposition(|&byte| byte == b'\n').map_or(0, |at| at + 1);
    let end = rest.iter().position(|&byte| byte == b'\n').unwrap_or(rest.len());
    (1 + before.iter().filter(|&&byte| byte == b'\n').count(), &before[start..], &rest[..end])
}

/// A line with its number, for a terminal: the end of what stands before a place, and the beginning of the rest.
fn line_shown(line: usize, before: &[u8], rest: &[u8]) -> String {
    let (before, rest) = (shown(before), shown(rest));
    let from = before.char_indices().rev().nth(99).map_or(0, |(at, _)| at);
    let to = rest.char_indices().nth(200).map_or(rest.len(), |(at, _)| at);
    let less = if from > 0 { ".." } else { "" };
    let more = if to < rest.len() { ".." } else { "" };
    format!("\n{line:>6} | {less}{}{}{more}", &before[from..], &rest[..to])
}

/// Bytes for a terminal: characters as they are, what is not printable or not UTF-8 as escapes.
fn shown(bytes: &[u8]) -> String {
    let mut out = String::new();
    for chunk in bytes.utf8_chunks() {
        for c in chunk.valid().chars() {
            match c {
                '\'' | '"' | '\\' => out.push(c),
                c => out.extend(c.escape_debug()),
            }
        }
        for byte in chunk.invalid() {
            let _ = write!(out, "\\x{byte:02x}");
        }
    }
    out
}

/// Prints ids on a line, and before it, if asked for, the text with | between the tokens.
fn print_ids(tokenizer: &RwkvTokenizer, ids: &[u32], show: bool) -> Result<(), Failure> {
    let mut out = io::stdout().lock();
    if show {
        let tokens: Result<Vec<_>, _> = ids.iter().map(|&id| tokenizer.decode_bytes(&[id])).collect();
        let tokens: Vec<_> = tokens.map_err(refused)?.iter().map(|token| shown(token)).collect();
        writeln!(out, "{}", tokens.join("|"))?;
    }
    let ids: Vec<_> = ids.iter().map(u32::to_string).collect();
    writeln!(out, "{}", ids.join(" "))?;
    Ok(out.flush()?)
}

/// Tells how many bytes were looked at for so many ids.
fn print_looked(looked: u64, ids: usize) {
    eprintln!("looked at {looked} bytes for {ids} ids");
}

fn encode(options: &Options) -> Result<(), Failure> {
    let tokenizer = options.tokenizer()?;
    let (ids, looked) = tokenizer.encode_looked(&options.input()?).map_err(refused)?;
    print_ids(&tokenizer, &ids, options.show)?;
    if options.looked {
        print_looked(looked, ids.len());
    }
    Ok(())
}

fn decode(options: &Options) -> Result<(), Failure> {
    let tokenizer = options.tokenizer()?;
    let input = options.input()?;
    let number = |word: &[u8]| lossy(word).parse().map_err(|_| refused(format!("{:?} is no id", lossy(word))));
    let words = input.split(u8::is_ascii_whitespace).filter(|word| !word.is_empty());
    let ids: Vec<u32> = words.map(number).collect::<Result<_, _>>()?;
    let bytes = match (options.text, options.lossy) {
        (true, _) => tokenizer.decode_utf8(&ids).map(String::into_bytes),
        (_, true) => tokenizer.decode_lossy(&ids).map(String::into_bytes),
        _ => tokenizer.decode_bytes(&ids),
    };
    Ok(io::stdout().write_all(&bytes.map_err(refused)?)?)
}

/// Each read is a piece; its ids are printed before the next read. What was looked at is told at the end, or where the stream stops.
fn stream(options: &Options) -> Result<(), Failure> {
    let tokenizer = options.tokenizer()?;
    let mut stream = tokenizer.stream();
    let mut piece = vec![0; 1 << 16];
    let (mut looked, mut count) = (0, 0);
    loop {
        let len = io::stdin().read(&mut piece)?;
        let mut ids = Vec::new();
        let answer = if len == 0 { stream.end(&mut ids) } else { stream.add(&piece[..len], &mut ids) };
        if !ids.is_empty() {
            print_ids(&tokenizer, &ids, options.show)?;
        }
        (looked, count) = (looked + stream.looked(), count + ids.len());
        if options.looked && (len == 0 || answer.is_err()) {
            print_looked(looked, count);
        }
        answer.map_err(refused)?;
        if len == 0 {
            return Ok(());
        }
    }
}

fn check(options: &Options) -> Result<(), Failure> {
    let [file] = options.words.as_slice() else { return Err(misused("check needs one file")) };
    let (tokenizer, len) = load(&lossy(file), options.edition, options.partial)?;
    let counts = tokenizer.counts();
    let mode = if options.partial { "partial" } else { "full" };
    println!("accepted as {mode}, edition {}: {len} bytes of text", options.edition);
    println!("{:>8} tokens", counts.tokens);
    println!("{:>8} nodes", counts.nodes);
    println!("{:>8} blob bytes", counts.blob_bytes);
    println!("{:>8} table words", counts.table_words);
    Ok(())
}

/// Encodes a sentence, streams it word by word, and compares.
fn demo(options: &Options) -> Result<(), Failure> {
    let tokenizer = options.tokenizer()?;
    let sentence = b"Bombrezen 412, wind 270 degrees at 8 knots, runway 27 left, cleared for takeoff.".to_vec();
    let text = if options.words.is_empty() { sentence } else { options.words.join(&b' ') };
    println!("whole:");
    let whole = tokenizer.encode_bytes(&text).map_err(refused)?;
    print_ids(&tokenizer, &whole, true)?;
    println!("\nword by word, each id as soon as no later byte can change it:");
    let mut stream = tokenizer.stream();
    let mut ids = Vec::new();
    for piece in text.split_inclusive(|&byte| byte == b' ').map(Some).chain([None]) {
        let before = ids.len();
        match piece {
            Some(piece) => stream.add(piece, &mut ids),
            None => stream.end(&mut ids),
        }
        .map_err(refused)?;
        let tokens = tokenizer.decode_bytes(&ids[before..]).map_err(refused)?;
        let piece = piece.map_or("end".to_string(), |piece| format!("{:?}", lossy(piece)));
        println!("{piece:>16}  gives {:?} for {:?}", &ids[before..], lossy(&tokens));
    }
    if ids != whole {
        return Err(refused("the stream's ids are not those of the whole text"));
    }
    println!("\nthe same {} ids", ids.len());
    Ok(())
}
