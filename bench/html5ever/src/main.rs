//! What html5ever does with a page, to be timed beside `ngrun`: `tokens FILE` reads its tokens and counts them,
//! `tree FILE` reads its tree and serialises it to standard output.
use html5ever::driver::ParseOpts;
use html5ever::serialize::{serialize, SerializeOpts};
use html5ever::tendril::{ByteTendril, StrTendril, TendrilSink};
use html5ever::tokenizer::{BufferQueue, Token, TokenSink, TokenSinkResult, Tokenizer, TokenizerOpts};
use html5ever::parse_document;
use markup5ever_rcdom::{RcDom, SerializableHandle};
use std::io::{self, BufWriter, Write};
use std::{env, fs};

struct Count(u64);

impl TokenSink for Count {
    type Handle = ();

    fn process_token(&mut self, token: Token, _line: u64) -> TokenSinkResult<()> {
        match token {
            Token::ParseError(_) => {}
            _ => self.0 += 1,
        }
        TokenSinkResult::Continue
    }
}

fn tokens(page: &[u8]) -> io::Result<()> {
    let text: StrTendril = ByteTendril::from_slice(page).try_reinterpret().expect("a page in UTF-8");
    let mut input = BufferQueue::new();
    input.push_back(text);
    let mut tokenizer = Tokenizer::new(Count(0), TokenizerOpts::default());
    let _ = tokenizer.feed(&mut input);
    tokenizer.end();
    writeln!(io::stdout(), "{}", tokenizer.sink.0)
}

fn tree(page: &[u8]) -> io::Result<()> {
    let dom = parse_document(RcDom::default(), ParseOpts::default()).from_utf8().one(page);
    let mut out = BufWriter::new(io::stdout().lock());
    let handle: SerializableHandle = dom.document.clone().into();
    serialize(&mut out, &handle, SerializeOpts::default())?;
    out.flush()
}

fn main() -> io::Result<()> {
    let words: Vec<String> = env::args().collect();
    let page = fs::read(&words[2])?;
    match words[1].as_str() {
        "tokens" => tokens(&page),
        _ => tree(&page),
    }
}
