use crate::{
    boundary::{self, Answer, Numbers},
    Edition, Refusal, Span,
};
use std::{fmt, iter::FusedIterator};

/// A token: its kind, where it stands, and whether a line feed stands before it.
#[derive(Clone, Copy, Debug, PartialEq, Eq, Hash)]
pub struct Token {
    /// Its kind.
    pub kind: TokenKind,
    /// Its bytes.
    pub span: Span,
    /// Whether a line feed stands between the offset from which it was asked for and the token,
    /// inside comments too. Asked for again from another offset it may be otherwise.
    pub line_feed: bool,
}

impl Token {
    #[inline]
    fn new(answer: Answer<'_>) -> Token {
        let Following { kind, span } = Following::new(answer, 0);
        let line_feed = answer.number(3) == 1;
        Token {
            kind,
            span,
            line_feed,
        }
    }

    /// Whether this is the end of the text.
    #[inline]
    pub fn is_eof(self) -> bool {
        self.kind == TokenKind::EOF
    }
}

/// The token that follows an item. Nothing is known of the lines before it.
#[derive(Clone, Copy, Debug, PartialEq, Eq, Hash)]
pub struct Following {
    /// Its kind.
    pub kind: TokenKind,
    /// Its bytes.
    pub span: Span,
}

impl Following {
    /// Of the numbers of an answer, from the index on.
    #[inline]
    pub(crate) fn new(answer: Answer<'_>, index: usize) -> Following {
        Following {
            kind: TokenKind(answer.number(index) as u8),
            span: Span::new(answer, index + 1),
        }
    }

    /// Whether this is the end of the text.
    #[inline]
    #[must_use]
    pub fn is_eof(self) -> bool {
        self.kind == TokenKind::EOF
    }
}

/// The next token from `at` on, behind blanks and comments; [`TokenKind::EOF`] at the end of
/// the text.
///
/// # Errors
///
/// Refused with 1, 2 and 5 to 9.
///
/// ```
/// use movesig::{next_token, Edition, Span, TokenKind};
///
/// let token = next_token(Edition::One, b"  /* a gap */ vector<u8>", 0)?;
/// assert_eq!(token.kind, TokenKind::IDENTIFIER);
/// assert_eq!(token.span, Span { start: 14, end: 20 });
/// assert!(!token.line_feed);
///
/// // The flag is about the bytes from the offset on.
/// assert!(next_token(Edition::One, b"/*\n*/a", 0)?.line_feed);
/// assert!(next_token(Edition::One, b"\na", 0)?.line_feed);
/// assert!(!next_token(Edition::One, b"\na", 1)?.line_feed);
///
/// // The editions differ in numbers alone.
/// assert_eq!(next_token(Edition::One, b"1_000", 0)?.span, Span { start: 0, end: 1 });
/// assert_eq!(next_token(Edition::Two, b"1_000", 0)?.span, Span { start: 0, end: 5 });
///
/// assert_eq!(next_token(Edition::One, b"$", 0).unwrap_err().number(), 5);
/// # Ok::<(), movesig::Refusal>(())
/// ```
#[inline]
pub fn next_token(edition: Edition, text: &[u8], at: usize) -> Result<Token, Refusal> {
    let mut numbers = Numbers::new();
    let answer = boundary::next_token(edition.number(), text, at, &mut numbers);
    if answer.result == 0 {
        Ok(Token::new(answer))
    } else {
        Err(Refusal::new(answer))
    }
}

/// All tokens from `at` on, EOF last. A refusal is the last thing given, behind the tokens
/// before it.
///
/// ```
/// use movesig::{tokens, Edition, Refusal};
///
/// let text = b"a<b>>c";
/// let spelled: Result<Vec<&[u8]>, Refusal> =
///     tokens(Edition::One, text, 0).map(|token| Ok(token?.span.of(text))).collect();
/// assert_eq!(spelled?, [&b"a"[..], b"<", b"b", b">>", b"c", b""]);
///
/// let mut broken = tokens(Edition::One, b"a $ b", 0);
/// assert!(broken.next().unwrap().is_ok());
/// assert!(broken.next().unwrap().is_err());
/// assert!(broken.next().is_none());
/// # Ok::<(), Refusal>(())
/// ```
#[inline]
#[must_use]
pub fn tokens(edition: Edition, text: &[u8], at: usize) -> Tokens<'_> {
    let at = Some(at);
    Tokens { edition, text, at }
}

/// The iterator that [`tokens`] gives.
#[derive(Clone, Debug)]
pub struct Tokens<'t> {
    edition: Edition,
    text: &'t [u8],
    at: Option<usize>,
}

impl Iterator for Tokens<'_> {
    type Item = Result<Token, Refusal>;

    #[inline]
    fn next(&mut self) -> Option<Self::Item> {
        let token = next_token(self.edition, self.text, self.at?);
        self.at = match token {
            Ok(token) if !token.is_eof() => Some(token.span.end),
            _ => None,
        };
        Some(token)
    }
}

impl FusedIterator for Tokens<'_> {}

/// The kind of a token: a number from 0 to 67, in the order of `Tok` of the Move compiler's
/// lexer.
///
/// ```
/// use movesig::TokenKind;
///
/// assert_eq!(TokenKind::GREATER_GREATER.number(), 34);
/// assert_eq!(TokenKind::GREATER_GREATER.name(), "GreaterGreater");
/// ```
#[derive(Clone, Copy, PartialEq, Eq, Hash, PartialOrd, Ord)]
pub struct TokenKind(u8);

macro_rules! token_kinds {
    ($($constant:ident $name:ident $number:literal $words:literal),* $(,)?) => {
        impl TokenKind {
            $(
                #[doc = $words]
                pub const $constant: TokenKind = TokenKind($number);
            )*
        }

        const NAMES: &[&str] = &[$(stringify!($name)),*];
    };
}

token_kinds! {
    EOF EOF 0 "The end of the text.",
    NUM_VALUE NumValue 1 "`1`, `0x1f`",
    NUM_TYPED_VALUE NumTypedValue 2 "`1u8`, `0x1fu64`",
    BYTE_STRING_VALUE ByteStringValue 3 "`x\"00\"`, `b\"text\"`",
    IDENTIFIER Identifier 4 "A name that is no keyword.",
    EXCLAIM Exclaim 5 "`!`",
    EXCLAIM_EQUAL ExclaimEqual 6 "`!=`",
    PERCENT Percent 7 "`%`",
    AMP Amp 8 "`&`",
    AMP_AMP AmpAmp 9 "`&&`",
    AMP_MUT AmpMut 10 "`&mut` and one space, which belongs to it.",
    L_PAREN LParen 11 "`(`",
    R_PAREN RParen 12 "`)`",
    L_BRACKET LBracket 13 "`[`",
    R_BRACKET RBracket 14 "`]`",
    STAR Star 15 "`*`",
    PLUS Plus 16 "`+`",
    COMMA Comma 17 "`,`",
    MINUS Minus 18 "`-`",
    PERIOD Period 19 "`.`",
    PERIOD_PERIOD PeriodPeriod 20 "`..`",
    SLASH Slash 21 "`/`",
    COLON Colon 22 "`:`",
    COLON_COLON ColonColon 23 "`::`",
    SEMICOLON Semicolon 24 "`;`",
    LESS Less 25 "`<`",
    LESS_EQUAL LessEqual 26 "`<=`",
    LESS_LESS LessLess 27 "`<<`",
    EQUAL Equal 28 "`=`",
    EQUAL_EQUAL EqualEqual 29 "`==`",
    EQUAL_EQUAL_GREATER EqualEqualGreater 30 "`==>`",
    LESS_EQUAL_EQUAL_GREATER LessEqualEqualGreater 31 "`<==>`",
    GREATER Greater 32 "`>`",
    GREATER_EQUAL GreaterEqual 33 "`>=`",
    GREATER_GREATER GreaterGreater 34 "`>>`",
    CARET Caret 35 "`^`",
    ABORT Abort 36 "`abort`",
    ACQUIRES Acquires 37 "`acquires`",
    AS As 38 "`as`",
    BREAK Break 39 "`break`",
    CONTINUE Continue 40 "`continue`",
    COPY Copy 41 "`copy`",
    ELSE Else 42 "`else`",
    FALSE False 43 "`false`",
    IF If 44 "`if`",
    INVARIANT Invariant 45 "`invariant`",
    LET Let 46 "`let`",
    LOOP Loop 47 "`loop`",
    MODULE Module 48 "`module`",
    MOVE Move 49 "`move`",
    NATIVE Native 50 "`native`",
    PUBLIC Public 51 "`public`",
    RETURN Return 52 "`return`",
    SPEC Spec 53 "`spec`",
    STRUCT Struct 54 "`struct`",
    TRUE True 55 "`true`",
    USE Use 56 "`use`",
    WHILE While 57 "`while`",
    L_BRACE LBrace 58 "`{`",
    PIPE Pipe 59 "`|`",
    PIPE_PIPE PipePipe 60 "`||`",
    R_BRACE RBrace 61 "`}`",
    FUN Fun 62 "`fun`",
    SCRIPT Script 63 "`script`",
    CONST Const 64 "`const`",
    FRIEND Friend 65 "`friend`",
    NUM_SIGN NumSign 66 "`#`",
    AT_SIGN AtSign 67 "`@`",
}

impl TokenKind {
    /// The kind with this number, from 0 to 67.
    #[must_use]
    pub fn from_number(number: u8) -> Option<TokenKind> {
        (usize::from(number) < NAMES.len()).then_some(TokenKind(number))
    }

    /// Its number.
    #[inline]
    #[must_use]
    pub const fn number(self) -> u8 {
        self.0
    }

    /// Its name in the Move compiler's lexer.
    #[must_use]
    pub fn name(self) -> &'static str {
        NAMES.get(self.0 as usize).copied().unwrap_or("unknown")
    }
}

/// Its name.
impl fmt::Display for TokenKind {
    fn fmt(&self, to: &mut fmt::Formatter<'_>) -> fmt::Result {
        to.pad(self.name())
    }
}

impl fmt::Debug for TokenKind {
    fn fmt(&self, to: &mut fmt::Formatter<'_>) -> fmt::Result {
        to.write_str(self.name())
    }
}
